package p;

public class T {
    static long g() {
        return 1;
    }

    static short f() {
        return (short) g();
    }
}
