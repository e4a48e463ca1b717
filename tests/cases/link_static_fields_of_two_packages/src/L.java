package lib;

public class L {
    static short first;
    static byte[] kept = {1, 2};
    static short count = 5;

    public static short next() {
        count = (short) (count + 1);
        kept[0] = (byte) count;
        return count;
    }

    public static byte[] kept() {
        return kept;
    }
}
