package p;

public class T {
    int i;

    short f() {
        return (short) i;
    }
}
