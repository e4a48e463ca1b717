package p;

public class T {
    static final int[] A = {1, 70000};
}
