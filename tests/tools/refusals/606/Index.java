package p;

public class Index {
    public static byte f(byte[] b, short off, byte i) {
        byte r = 0;
        r = b[off + i];
        return r;
    }
}
