package p;

public class Shift {
    public static short f(short v) {
        short n = 4;
        v = (short) ((v & 0xFFFF) >> n);
        return v;
    }
}
