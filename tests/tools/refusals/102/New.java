package p;

public class New {
}
