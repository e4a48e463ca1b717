package p;

public abstract class C extends q.Q implements I {
}
