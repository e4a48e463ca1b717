package p;

public class T {
    static short s = 7;
    static Object o = null;
    short balance;
    Object other;

    public static short e(q.A a, short x) {
        return a.a(x);
    }

    public static void v() {
    }

    public static A n() {
        return null;
    }

    public static void t() throws E {
        throw new E();
    }

    public static void make() {
        byte[] b = new byte[3];
        b[1] = 64;
        b[2] = -128;
        A[] none = new A[0];
        T t = new T();
        t.balance = 30;
        t.other = b;
        new A();
    }
}
