package p;

public class A implements q.I {
    static q.I[] all;

    public static q.I make() {
        return new A();
    }

    public static Object asObject(q.I i) {
        return i;
    }

    public static boolean same(q.I i) {
        return i.equals(i);
    }

    public static short many(short n) {
        all = new q.I[n];
        Object o = all;
        return o instanceof Object[] ? (short) ((Object[]) o).length : (short) -1;
    }

    public short f() {
        return 7;
    }

    public boolean equals(Object other) {
        return other == this;
    }
}
