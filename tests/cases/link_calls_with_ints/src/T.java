package p;

import q.A;

public class T {
    public static int sum(int a, short b, boolean c) {
        return A.sum(a, b, c) + 1;
    }

    public static int half(int a, byte b) {
        return A.half((short) a, b) * 65536;
    }

    public static int object(int n) {
        A a = new A(n, (byte) n);
        return a.more((byte) n, n) + a.low(n);
    }

    public static short plain(short a, byte b) {
        return A.half(A.half(a, b), b);
    }
}
