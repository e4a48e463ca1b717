package p;

public class T {
    static int total;
    int kept;

    public static int product(int a, int b) {
        return a * b;
    }

    public static int add(int a) {
        total += a;
        return total;
    }

    public static int keep(int a) {
        T t = new T();
        t.kept = a;
        return t.kept - 1;
    }

    public static int pick(int[] a, short i) {
        a[i] = a[i] / 3;
        return a[i];
    }
}
