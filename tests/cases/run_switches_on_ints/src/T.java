package p;

public class T {
    public static short table(int n) {
        switch (n) {
            case 2147483645:
                return 1;
            case 2147483646:
                return 2;
            case 2147483647:
                return 3;
            default:
                return 0;
        }
    }

    public static short low(int n) {
        switch (n) {
            case -2147483648:
                return 1;
            case -2147483647:
                return 2;
            case -2147483646:
                return 3;
            default:
                return 0;
        }
    }

    public static int look(int n) {
        int told = 0;
        switch (n) {
            case -2147483648:
                told = 1;
                break;
            case -1:
                told = 2;
            case 0:
                told += 10;
                break;
            case 65536:
                told = 65536;
                break;
            case 2147483647:
                told = -2147483648;
                break;
            default:
                told = n + 1;
        }
        return told;
    }

    public static int around(int n) {
        do {
            n += 65535;
        } while (n > 0 && n < 1000000);
        return n;
    }

    public static int first(int n) {
        while (n > 10) {
            n /= 3;
        }
        for (int i = 0; i < 70000; i += 10000) {
            n += i;
        }
        return n;
    }

    /** The loop's jumps are wide. */
    public static int far(int n) {
        int told = 0;
        while (n > 0) {
            told = told * 31 + -7;
            told = told * 31 + n;
            told = told * 31 + -2007;
            told = told * 31 + n;
            told = told * 31 + -4007;
            told = told * 31 + n;
            told = told * 31 + -6007;
            told = told * 31 + n;
            told = told * 31 + -8007;
            told = told * 31 + n;
            told = told * 31 + -10007;
            told = told * 31 + n;
            told = told * 31 + -12007;
            told = told * 31 + n;
            told = told * 31 + -14007;
            told = told * 31 + n;
            told = told * 31 + -16007;
            told = told * 31 + n;
            n -= 900000000;
        }
        return told;
    }
}
