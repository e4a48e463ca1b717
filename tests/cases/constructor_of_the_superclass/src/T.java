package p;

public class T {
    public static short f() {
        return new B((short) 3).n; // compiled with the B of before
    }
}
