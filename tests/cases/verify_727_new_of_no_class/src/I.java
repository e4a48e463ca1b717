package p;

public interface I {
    short value(short a);

    short count();
}
