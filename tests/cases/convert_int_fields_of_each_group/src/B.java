package p;

class B extends A {
    int h;
    Object i;
    public int j;
}
