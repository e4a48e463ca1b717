package p;

public class Copy {
    public static byte[] f(byte[] a) {
        short n = 1;
        byte[] b = a.clone();
        b[0] = (byte) n;
        return b;
    }
}
