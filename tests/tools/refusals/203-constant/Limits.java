package p;

/** A constant of an instance, which is read by an expression: javac tests it by java.util.Objects. */
public class Limits {
    final short max = 5;

    public static short f(Limits l) {
        short n = 1;
        return (short) (n + l.max);
    }
}
