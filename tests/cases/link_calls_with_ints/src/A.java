package q;

public class A {
    public static int kept;

    public A(int n, byte b) {
        kept = n + b;
    }

    public static int sum(int a, short b, boolean c) {
        return c ? a + b : a - b;
    }

    public static short half(short a, byte b) {
        return (short) ((a + b) / 2);
    }

    public int more(byte a, int b) {
        return a + b + kept;
    }

    public byte low(int a) {
        return (byte) a;
    }
}
