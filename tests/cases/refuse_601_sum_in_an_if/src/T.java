package p;

public class T {
    public static boolean f(short a, short b) {
        return a + b > 100;
    }
}
