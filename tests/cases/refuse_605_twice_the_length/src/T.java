package p;

public class T {
    static byte[] f(short n) {
        return new byte[n * 2];
    }
}
