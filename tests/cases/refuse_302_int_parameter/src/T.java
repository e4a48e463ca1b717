package p;

public class T {
    static short f(int i) {
        return (short) i;
    }
}
