package p;

public interface Q {
    short f();
}
