package p;

public class T {
    public static boolean is(Object a) {
        return a instanceof int[];
    }

    public static Object cast(Object a) {
        return (int[]) a;
    }
}
