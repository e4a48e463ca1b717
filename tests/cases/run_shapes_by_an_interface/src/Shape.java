package p;

public interface Shape {
    short area();
}
