package p;

public class T {
    public static short f(I x) {
        return x.m(); // compiled with the I of before
    }
}
