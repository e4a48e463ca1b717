package p;

public class T {
    static int[] a;

    static void f() {
        a = null;
    }
}
