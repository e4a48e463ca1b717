package p;

public class T {
    static short f(Object a) {
        return (short) ((int[]) a)[0];
    }
}
