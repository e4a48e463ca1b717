package p;

public class Greeting {
    public static boolean f(Object o) {
        boolean same = false;
        if (o != null) {
            same = o.equals("hello");
        }
        return same;
    }
}
