package p;

public class T {
    static short f(short a) {
        return (short) (a + 1L);
    }
}
