package p;

public class T {
    static boolean f() {
        Object s = "a";
        return s == null;
    }
}
