package p;

public interface I {
    short m();
}
