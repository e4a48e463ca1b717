package p;

public class Square implements Shape {
    short side;

    public Square(short side) {
        this.side = side;
    }

    public short area() {
        return (short) (side * side);
    }
}
