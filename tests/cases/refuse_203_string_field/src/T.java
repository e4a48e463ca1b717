package p;

public class T {
    String s;
}
