package p;

public class T {
    static void f(int a) {
    }
}
