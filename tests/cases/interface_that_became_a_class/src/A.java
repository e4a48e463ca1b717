package p;

public class A {
    public static short m() {
        return 7;
    }
}
