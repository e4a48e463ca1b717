package p;

public interface A {
    static short m() {
        return 7;
    }
}
