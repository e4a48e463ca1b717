package p;

public class T {
    static short f(short b, short c) {
        switch (b << 8 | c) {
            case 1:
                return 5;
            default:
                return 6;
        }
    }
}
