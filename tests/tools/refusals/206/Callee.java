package p;

/** Caller.class was compiled when n was no static method. */
public class Callee {
    public static short n() {
        return 1;
    }
}
