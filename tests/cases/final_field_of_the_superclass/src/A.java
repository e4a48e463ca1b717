package p;

public class A {
    protected final short n;

    public A() {
        n = 7;
    }
}
