package lib;

public abstract class L {
    public L() {
    }

    abstract short v();
}
