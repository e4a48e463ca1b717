package q;

public abstract class Base {
    protected int level;

    public abstract int take(int n);
}
