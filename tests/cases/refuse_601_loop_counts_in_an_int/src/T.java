package p;

public class T {
    static short f(byte[] b) {
        short n = 0;
        for (int i = 0; i < b.length; i++) {
            n += b[i];
        }
        return n;
    }
}
