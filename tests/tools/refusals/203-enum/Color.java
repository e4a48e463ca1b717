package p;

/** An enum is a class below java.lang.Enum, which no card has. */
public enum Color {
    RED, GREEN
}
