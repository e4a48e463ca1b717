package p;

public class T {
    public static short f(short a, byte[] b) {
        try {
            return (short) (b[0] / a);
        } catch (ArithmeticException e) {
            return 1;
        } catch (NullPointerException e) {
            return 2;
        } finally {
            if (b != null) {
                b[0] = 0;
            }
        }
    }
}
