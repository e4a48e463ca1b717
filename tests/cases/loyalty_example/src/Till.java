package shop;

import javacard.framework.APDU;
import javacard.framework.Applet;
import loyalty.Account;
import loyalty.Points;

/** A till: byte 5 of the buffer is what something costs; the customer's points are put into byte 6. */
public class Till extends Applet {
    Points account = Account.open();

    public static void install(byte[] b, short o, byte l) {
        new Till().register();
    }

    public void process(APDU apdu) {
        byte[] b = apdu.getBuffer();
        account.bought(b[5]);
        b[6] = (byte) account.points();
    }
}
