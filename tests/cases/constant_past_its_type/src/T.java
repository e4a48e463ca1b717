package p;

public class T {
    public static final byte B = 100; // 300 in the class file
}
