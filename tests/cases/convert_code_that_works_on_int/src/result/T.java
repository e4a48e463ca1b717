package p;

public class T {
    static int f() {
        return 1;
    }
}
