package p;

public class T {
    static short f(short v, short n) {
        return (short) ((v & 0xFFFF) >> n);
    }
}
