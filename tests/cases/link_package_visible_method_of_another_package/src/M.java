package app;

public class M extends lib.L {
    public short v() {
        return 2;
    }

    public static M make() {
        return new M();
    }
}
