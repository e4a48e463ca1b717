package p;

public class B extends A {
    static byte[] bytes = {1, 2, 3};
    static boolean[] flags = {true, false};
    static short made;
    Object kept;

    public B() {
        made = (short) (made + 1);
    }

    public short value(short a) {
        set(twice(a));
        return sum;
    }

    void set(short a) {
        sum = a;
    }

    private short own(short a) {
        return a;
    }

    public short count() {
        return (short) (super.count() + own((short) 1));
    }

    static short twice(short a) {
        return (short) (a + a);
    }

    static short choose(short a, short b, short c) {
        short d = a > 0 ? b : c;
        return d;
    }

    static short through(I i, short a) {
        return i.value(a);
    }

    static short grow(byte[] b, short i) {
        return b[i] += 1;
    }

    static Object make(short n) {
        return n > 2 ? (Object) new short[n] : new B();
    }

    static short last() {
        return 7;
    }
}
