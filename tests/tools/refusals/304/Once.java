package p;

public class Once {
    private short n;

    public synchronized void f() {
        n++;
    }
}
