package e;

public class Y implements r.Z {
    public Y() {
    }

    public short m() {
        return 7;
    }
}
