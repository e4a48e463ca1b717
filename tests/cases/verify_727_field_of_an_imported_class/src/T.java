package p;

public class T extends q.Q {
    short own;

    short get() {
        return own;
    }
}
