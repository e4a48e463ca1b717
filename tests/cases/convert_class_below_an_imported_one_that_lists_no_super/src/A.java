package p;

public class A extends q.B implements q.J {
    public static A make() {
        return new A();
    }

    public static Object asObject(q.B b) {
        return b;
    }

    public boolean equals(Object other) {
        return other == this;
    }
}
