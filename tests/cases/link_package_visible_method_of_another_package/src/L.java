package lib;

public class L {
    public L() {
    }

    short v() {
        return 1;
    }

    public short w() {
        return v();
    }
}
