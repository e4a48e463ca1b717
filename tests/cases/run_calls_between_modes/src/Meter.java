package p;

public interface Meter {
    int read(int times, byte step);
}
