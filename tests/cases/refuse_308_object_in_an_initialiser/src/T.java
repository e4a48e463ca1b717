package p;

public class T {
    static Object lock = new Object();
}
