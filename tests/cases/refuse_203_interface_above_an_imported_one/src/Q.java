package q;

public class Q {
    public static short f() {
        s.I i = new e.Y();
        return i.m();
    }
}
