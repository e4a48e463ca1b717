package p;

// The source of the example. T.class was made by hand, without the constructor that javac would give it, so that it has
// one method. That is f, with the code 1A 04 60 93 AC: iload_0, iconst_1, iadd, i2s, ireturn. The instructions that are
// written for it are 1C 04 41 78, sload_0, sconst_1, sadd, sreturn: the sum of two shorts is made a short by the card's
// sadd itself, so that i2s is not written.
public class T {
    public static short f(short a) {
        return (short) (a + 1);
    }
}
