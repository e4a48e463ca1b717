package p;

public class Lock {
    private short n;

    public void f() {
        synchronized (this) {
            n = 1;
        }
    }
}
