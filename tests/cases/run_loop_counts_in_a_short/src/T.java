package p;

public class T {
    public static short f(byte[] b) {
        short n = 0;
        for (short i = 0; i < b.length; i++) {
            n += b[i];
        }
        return n;
    }
}
