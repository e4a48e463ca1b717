package p;

/** A loop over what is Iterable asks an Iterator. */
public class Sum {
    public static short f(Iterable<byte[]> rows) {
        short n = 0;
        for (byte[] row : rows) {
            n += row[0];
        }
        return n;
    }
}
