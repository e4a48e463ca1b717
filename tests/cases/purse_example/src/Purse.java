package purse;

import javacard.framework.APDU;
import javacard.framework.Applet;
import javacard.framework.ISOException;

/**
 * A balance of up to a million, which a command adds to or takes from: byte 1 of the buffer says which, bytes 5 to 8 how
 * much.
 */
public class Purse extends Applet {
    static final int MOST = 1000000;

    int balance;

    public static void install(byte[] b, short o, byte l) {
        new Purse().register();
    }

    public void process(APDU apdu) {
        byte[] b = apdu.getBuffer();
        int amount = number(b, (short) 5);
        switch (b[1]) {
            case 0x30:
                if (amount < 0 || amount > MOST - balance) {
                    ISOException.throwIt((short) 0x6A80);
                }
                balance = balance + amount;
                break;
            case 0x40:
                if (amount < 0 || amount > balance) {
                    ISOException.throwIt((short) 0x6A85);
                }
                balance = balance - amount;
                break;
            default:
                ISOException.throwIt((short) 0x6D00);
        }
    }

    /** Four bytes as a number, the highest first. */
    static int number(byte[] b, short at) {
        return b[at] << 24 | (b[at + 1] & 0xFF) << 16 | (b[at + 2] & 0xFF) << 8 | b[at + 3] & 0xFF;
    }
}
