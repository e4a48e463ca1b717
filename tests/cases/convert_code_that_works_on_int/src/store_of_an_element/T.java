package p;

public class T {
    static void f(Object a) {
        ((int[]) a)[0] = 1;
    }
}
