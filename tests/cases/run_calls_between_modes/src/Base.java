package p;

public abstract class Base {
    byte step;

    Base(byte step) {
        this.step = step;
    }

    int twice(int n) {
        return n + n;
    }

    short half(short n) {
        return (short) (n >> 1);
    }
}
