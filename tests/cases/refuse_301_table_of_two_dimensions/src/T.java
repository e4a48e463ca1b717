package p;

public class T {
    static short f(short[][] table, short row) {
        return table[row][0];
    }
}
