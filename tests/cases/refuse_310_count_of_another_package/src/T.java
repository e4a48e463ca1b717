package p;

import q.A;

public class T {
    static short f() {
        return A.count;
    }
}
