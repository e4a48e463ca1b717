package p;

/** javac counts in an int that no source names. */
public class Total {
    public static short f(short[] values) {
        short sum = 0;
        for (short v : values) {
            sum = (short) (sum + v);
        }
        return sum;
    }
}
