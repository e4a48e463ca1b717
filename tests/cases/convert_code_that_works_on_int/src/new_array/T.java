package p;

public class T {
    static Object f() {
        return new int[2];
    }
}
