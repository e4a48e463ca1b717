package p;

public class T {
    static int i;

    static short f() {
        return (short) i;
    }
}
