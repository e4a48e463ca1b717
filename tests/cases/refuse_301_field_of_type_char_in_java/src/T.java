package p;

public class T {
    char c;
}
