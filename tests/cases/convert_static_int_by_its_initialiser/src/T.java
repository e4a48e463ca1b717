package p;

public class T {
    static int k = 70000;
}
