package p;

public class Mean {
    public static short f(short a, short b) {
        short c = a;
        return (short) ((c + b) / 2);
    }
}
