package p;

public class A {
    short n;

    public A(short n) {
        this.n = n;
    }
}
