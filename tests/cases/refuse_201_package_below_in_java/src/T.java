package p.util;

public class T {
}
