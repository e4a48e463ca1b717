package p;

public class T {
    static Object kept;

    static void keep(Object o) {
        kept = o;
    }
}
