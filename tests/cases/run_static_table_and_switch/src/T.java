package p;

public class T {
    static final byte MASK = 0x0F;
    static short[] table = {10, 20, -30};
    static boolean wasAsked;

    public static short at(short code) {
        wasAsked = true;
        switch (code & MASK) {
            case 1:
                return table[0];
            case 2:
                return table[1];
            case 9:
                return table[2];
            default:
                return table[(short) (code & MASK)];
        }
    }
}
