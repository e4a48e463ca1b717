package p;

public class T {
    static short f(short a, short b, short m) {
        return (short) (a * b % m);
    }
}
