package p;

public class Clock {
    private short ticks;
    private long time;

    public short f() {
        return ticks;
    }
}
