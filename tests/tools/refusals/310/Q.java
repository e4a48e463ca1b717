package q;

/** Of another package; q.exp is its export file. */
public class Q {
    public static short count;

    private Q() {
    }
}
