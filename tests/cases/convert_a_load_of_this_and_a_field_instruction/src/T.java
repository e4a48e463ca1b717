package p;

public class T {
    short s;

    public static T make() {
        return new T();
    }

    public void p(short v) {
        s = v;
    }

    public short g() {
        return s;
    }

    public short o(T t) {
        return t.s;
    }
}
