package p;

public class T {
    public static short f() {
        return A.m(); // compiled with the A of before
    }
}
