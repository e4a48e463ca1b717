package loyalty;

import javacard.framework.Shareable;

/** What the loyalty programme lets other packages do. */
public interface Points extends Shareable {
    /** Notes that something was bought: a point for each ten. */
    void bought(short amount);

    short points();
}
