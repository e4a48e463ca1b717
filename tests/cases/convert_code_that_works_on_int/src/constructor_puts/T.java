package p;

public class T {
    int i = 3;
}
