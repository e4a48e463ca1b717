package q;

public class Q {
    public short f;
}
