package p;

public class A {
    protected short n;
}
