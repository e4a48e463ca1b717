package p;

public class Caller {
    public static short f(Callee c) {
        short n = 1;
        return (short) (n + c.n());
    }
}
