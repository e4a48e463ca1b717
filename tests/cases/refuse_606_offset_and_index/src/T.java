package p;

public class T {
    static byte f(byte[] b, short off, byte i) {
        return b[off + i];
    }
}
