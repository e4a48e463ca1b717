package p;

public class T extends Exception {
    int code;

    T(int code) {
        this.code = code;
    }

    public static int divide(int a, int b) {
        try {
            return a / b;
        } catch (ArithmeticException e) {
            return 2147483647;
        }
    }

    public static int element(int[] a, int i) {
        int n = 100000;
        try {
            n += 1;
            n += a[i];
            n += 1;
        } catch (ArrayIndexOutOfBoundsException e) {
            n = -n;
        } catch (NullPointerException e) {
            n *= 65536;
        } finally {
            last = n;
        }
        return n;
    }

    static int last;

    static int fail(int n, short most) throws T {
        if (n > most) {
            throw new T(n - most);
        }
        return n;
    }

    public static int pass(int n, short most) {
        int before = n ^ 0x01010101;
        try {
            return fail(n, most) + before;
        } catch (T e) {
            return e.code - before;
        }
    }

    public static void leave(int n) throws T {
        while (true) {
            n -= 65536;
            if (n < 0) {
                throw new T(n);
            }
        }
    }
}
