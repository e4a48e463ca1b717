package p;

public class A {
    public static short f() {
        return 1;
    }
}
