package p;

public abstract class Tank implements Meter {
    protected int level;

    public abstract int fill(int amount, int[] log);

    public short pumps() {
        return 3;
    }
}
