package p;

public abstract class I {
    public abstract short m();
}
