package p;

public class T {
    static final int MOST = 2000000000;
    static int total = -2147483648;
    static int[] table;
    static byte small;
    static short half;
    static boolean flag;

    int kept;
    byte b;
    short s;
    boolean z;
    int[] list;
    T next;

    public static int add(int n) {
        total += n;
        return total;
    }

    public static int most() {
        return MOST;
    }

    public static int cells(int n) {
        T t = new T();
        t.kept = n;
        t.b = (byte) n;
        t.s = (short) n;
        t.z = n > 65535;
        t.next = new T();
        t.next.kept = t.kept++;
        t.next.kept += t.b;
        small = t.b;
        half = t.s;
        flag = t.z;
        return t.next.kept + (flag ? small : half);
    }

    public static int elements(int n, int i) {
        int[] a = new int[(short) n];
        a[0] = 2147483647;
        a[i] += n;
        a[i]++;
        table = a;
        return a[i]-- + a.length;
    }

    public static short bytes(byte[] b, int i, int v) {
        b[i] = (byte) v;
        b[i + 1] += (byte) (v >> 8);
        return (short) (b[i] * 256 + b[i + 1]);
    }

    public static int shorts(short[] a, int i, int v) {
        a[i] = (short) v;
        a[i]++;
        return a[i];
    }

    public static boolean booleans(boolean[] a, int i, int v) {
        a[i] = v != 0;
        return a[i] ^ v > 65536;
    }

    public static T objects(T[] a, int i, int v) {
        a[i] = new T();
        a[i].kept = v;
        return a[i];
    }

    public static int many(int n) {
        Object[] made = new Object[(short) n];
        made[n - 1] = made;
        return made.length;
    }

    public static int of(T[] a, int i) {
        return a[i] instanceof T ? ((T) a[i]).kept : -2147483648;
    }

    /** In this class file the index is within 16 bits. */
    public static int at(int[] a, short i) {
        return a[i];
    }

    public static boolean same(T[] a, int i, int j) {
        return a[i] == a[j] && a[i] != null && a[j] instanceof T;
    }
}
