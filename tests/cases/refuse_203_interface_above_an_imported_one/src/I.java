package s;

public interface I {
    short m();
}
