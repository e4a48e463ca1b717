package p;

public class T {
    short s;
    T next;

    public static T make() {
        T t = new T();
        t.next = t;
        return t;
    }

    public static short a(T t) {
        return t.s;
    }

    public void b(boolean x) {
        s = x ? (short) 1 : (short) 2;
    }

    public void c() {
        s++;
    }

    public short d() {
        return next.s;
    }

    public void e(T t) {
        s = t.s;
    }

    public void f() {
        next = this;
    }

    public short h() {
        while (s < 5) {
            s += 2;
        }
        return s;
    }

    public short w(T t) {
        T u = t;
        return s;
    }
}
