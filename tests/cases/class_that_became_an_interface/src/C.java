package p;

public class C implements I {
    public short m() {
        return 7;
    }
}
