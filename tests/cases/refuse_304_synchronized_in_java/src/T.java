package p;

public class T {
    synchronized void process() {
    }
}
