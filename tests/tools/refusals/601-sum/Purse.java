package st.purse;

public class Purse {
    private short balance;
    private short limit;

    public void credit(short amount) {
        if (amount > 0
                && balance + amount > limit) {
            return;
        }
        balance = (short) (balance + amount);
    }
}
