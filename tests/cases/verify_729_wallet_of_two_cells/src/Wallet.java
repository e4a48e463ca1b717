package p;

import javacard.framework.APDU;
import javacard.framework.Applet;
import javacard.framework.ISOException;

/** A balance that a command adds to or takes from: byte 1 of the buffer says which, byte 5 how much. */
public class Wallet extends Applet {
    short balance;

    public static void install(byte[] b, short o, byte l) {
        new Wallet().register();
    }

    public void process(APDU apdu) {
        byte[] b = apdu.getBuffer();
        switch (b[1]) {
            case 0x30:
                balance = (short) (balance + b[5]);
                break;
            case 0x40:
                if (b[5] > balance) {
                    ISOException.throwIt((short) 0x6A85);
                }
                balance = (short) (balance - b[5]);
                break;
            default:
                ISOException.throwIt((short) 0x6D00);
        }
    }
}
