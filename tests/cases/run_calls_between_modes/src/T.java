package p;

public class T extends Base implements Meter {
    int seen;

    T(int start, byte step) {
        super(step);
        seen = start;
    }

    public int read(int times, byte step) {
        return seen + times * step;
    }

    int twice(int n) {
        return super.twice(n) + half((short) n);
    }

    /** Of 16 bits by its types, and its sum is compared before it is cut. */
    static short clip(short a, short b) {
        return a + b > 32767 ? 32767 : (short) (a + b);
    }

    /** In no way in int mode. */
    static short plain(short a, byte b, boolean c) {
        return c ? (short) (a - b) : clip(a, b);
    }

    public static short mixed(short a, short b) {
        return (short) (plain(a, (byte) b, a < b) + clip(a, b));
    }

    public static int wide(short a, byte b, boolean c, int d) {
        return plain(a, b, c) + d;
    }

    private int own(boolean a, int[] b, short c, int d, Base e) {
        return (a ? b[c] : d) + e.half(c) + seen;
    }

    public static int all(int start, short c) {
        T t = new T(start, (byte) c);
        Meter m = t;
        Base b = t;
        int[] list = {start, 7};
        return m.read(100000, (byte) 3) + t.own(start > 0, list, (short) (c & 1), 1, b) + b.twice(start) + t.half(c);
    }

    public static int depth(int n) {
        return n == 0 ? 1 : n * depth(n - 1);
    }

    public static boolean sign(int n) {
        return isPositive(n) && !isPositive(-n);
    }

    static boolean isPositive(int n) {
        return n > 0;
    }

    public static void nothing(int a, short b, Object c) {
        if (c == null) {
            nothing(a + b, b, new T(a, (byte) 1));
        }
        last = a;
    }

    static int last;
}
