package p;

public class A {
    public int a;
    protected short b;
    public Object c;
    int[] d;
    int e;
    byte f;
    protected int[] g;
}
