package p;

public class Make {
    public static byte[] f(short n) {
        byte[] b = null;
        b = new byte[n * 2];
        return b;
    }
}
