package p;

public class B extends A {
    public void set() {
        n = 3; // compiled with the A of before
    }
}
