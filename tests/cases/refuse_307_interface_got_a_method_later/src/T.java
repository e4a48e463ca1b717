package p;

public class T implements Q {
}
