package app;

import lib.L;

public class M {
    static byte[] own = {3, 4, 5};
    static short mine = 11;
    static byte[] other;

    public static short f() {
        own[2] = (byte) mine;
        other = L.kept();
        mine = L.next();
        return other[0];
    }
}
