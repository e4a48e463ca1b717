package p;

public class Counter {
    private short small;

    /** How often it was asked. */
    private int count;

    public short f() {
        return small;
    }
}
