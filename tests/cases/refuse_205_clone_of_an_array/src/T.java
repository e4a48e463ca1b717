package p;

public class T {
    static byte[] f(byte[] a) {
        return a.clone();
    }
}
