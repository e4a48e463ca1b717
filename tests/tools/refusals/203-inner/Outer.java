package p;

/** An object of an inner class is made by an expression: javac tests it by java.util.Objects. */
public class Outer {
    public class Inner {
        public short v;
    }

    public static short f(Outer s) {
        Inner i = s.new Inner();
        return i.v;
    }
}
