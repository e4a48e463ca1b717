package p;

public abstract class T {
    abstract int g();

    short f() {
        return (short) g();
    }
}
