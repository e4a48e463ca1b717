package p;

public interface Meter {
    int LIMIT = 100000;

    int[] read(int[] into, short at);
}
