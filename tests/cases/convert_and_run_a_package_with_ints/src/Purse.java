package p;

public class Purse {
    public static final int MOST = 70000;
    static int credit = 70000;
    static int none;
    public static int[] table;
    static short[] steps = {1, -2};
    static int debt = -1;
    public int balance;
    short count;
    int[] log;
    Object last;
    public static Purse made;

    public static short open(short n, Object o) {
        Purse p = new Purse();
        p.count = (short) (n + steps[1]);
        p.last = o;
        made = p;
        return p.count;
    }

    public static boolean isInts(Object o) {
        return o instanceof int[];
    }
}
