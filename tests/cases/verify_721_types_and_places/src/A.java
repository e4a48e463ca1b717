package p;

public abstract class A implements I {
    protected short sum;

    public abstract short value(short a);

    public short count() {
        return sum;
    }
}
