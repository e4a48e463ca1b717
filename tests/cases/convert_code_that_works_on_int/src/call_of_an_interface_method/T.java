package p;

public class T {
    interface I {
        void g(int[] a);
    }

    static void f(I i) {
        i.g(null);
    }
}
