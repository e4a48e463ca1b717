package loyalty;

/** The points of one customer. */
public class Account implements Points {
    static short accounts;

    short points;

    public static Points open() {
        accounts = (short) (accounts + 1);
        return new Account();
    }

    public void bought(short amount) {
        points = (short) (points + amount / 10);
    }

    public short points() {
        return points;
    }
}
