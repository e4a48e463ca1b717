package q;

public interface Meter {
    int LIMIT = 100000;

    int read(int[] into, int at);
}
