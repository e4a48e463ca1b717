package p;

public class Reader {
    public static short f(byte[] b) {
        short n = 0;
        try {
            n = b[3];
        } catch (IllegalStateException e) {
            n = -1;
        }
        return n;
    }
}
