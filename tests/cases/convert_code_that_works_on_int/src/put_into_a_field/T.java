package p;

public class T {
    int i;

    void f() {
        i = 1;
    }
}
