package p;

public class Table {
    static short first = 3;
    static short[] table =
        make();

    static short[] make() {
        return new short[4];
    }
}
