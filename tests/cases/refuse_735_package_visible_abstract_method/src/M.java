package app;

public class M extends lib.L {
    public static short f(short a) {
        return a;
    }
}
