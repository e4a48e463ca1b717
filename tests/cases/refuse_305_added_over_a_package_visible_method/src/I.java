package p;

interface I {
    void m();
}
