package p;

import q.Q;

public class User {
    public static short f() {
        short n = 2;
        n = (short) (n + Q.count);
        return n;
    }
}
