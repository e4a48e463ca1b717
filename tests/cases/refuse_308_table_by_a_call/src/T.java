package p;

public class T {
    static short[] table = makeTable();

    static short[] makeTable() {
        return null;
    }
}
