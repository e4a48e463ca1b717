package p;

public class T {
    public static int add(int a, int b) {
        return a + b;
    }

    public static int subtract(int a, int b) {
        return a - b;
    }

    public static int multiply(int a, int b) {
        return a * b;
    }

    public static int divide(int a, int b) {
        return a / b;
    }

    public static int rest(int a, int b) {
        return a % b;
    }

    public static int negate(int a) {
        return -a;
    }

    public static int left(int a, int b) {
        return a << b;
    }

    public static int right(int a, int b) {
        return a >> b;
    }

    public static int unsigned(int a, int b) {
        return a >>> b;
    }

    public static int bits(int a, int b) {
        return a & 0x7FFFFFFF ^ (b | 0x55555555) & ~a;
    }

    public static byte low(int a) {
        return (byte) a;
    }

    public static short half(int a) {
        return (short) a;
    }

    public static int next(int a) {
        a++;
        a += 1000;
        a -= 32768;
        return a;
    }

    /** 1 for below, 2 for not above, 4 for equal, and the same of a alone against 0, 8 times as much. */
    public static short order(int a, int b) {
        short told = 0;
        if (a < b) {
            told |= 1;
        }
        if (a <= b) {
            told |= 2;
        }
        if (a == b) {
            told |= 4;
        }
        if (a < 0) {
            told |= 8;
        }
        if (a <= 0) {
            told |= 16;
        }
        if (a == 0) {
            told |= 32;
        }
        return told;
    }

    /** Numbers of each width, at their ends. */
    public static int number(short which) {
        int n = which == 0 ? -1 : which == 1 ? 5 : which == 2 ? 6 : which == 3 ? -2 : which == 4 ? 127 : which == 5 ? 128 : 0;
        n += which == 6 ? -128 : which == 7 ? -129 : which == 8 ? 32767 : which == 9 ? 32768 : which == 10 ? -32768 : 0;
        return n + (which == 11 ? -32769 : which == 12 ? 2147483647 : which == 13 ? -2147483648 : 0);
    }

    /** In 16 bits each product would be another. */
    public static boolean larger(short a, short b) {
        return a * b > 1000000000;
    }
}
