package p;

public class Fill {
    public static void f(byte[] b) {
        for (int i = 0; i < b.length; i++) {
            b[i] = 0;
        }
    }
}
