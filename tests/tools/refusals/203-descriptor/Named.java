package p;

public class Named {
    private byte[] name;

    public String name() {
        return null;
    }
}
