package p;

public class E extends Exception {
}
