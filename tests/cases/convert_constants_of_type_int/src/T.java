package p;

public class T {
    public static final int K = 70000;
    static final int HIDDEN = -1;

    public static boolean big(short a) {
        return a > (K >> 8);
    }
}
