package p;

/** What an outer class does to a private field of an inner one goes by a method that javac adds. */
public class Purse {
    static class Inner {
        private short v;
    }

    public static void f(Inner inner, short x) {
        inner.v += x;
    }
}
