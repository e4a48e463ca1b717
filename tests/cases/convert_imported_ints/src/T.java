package p;

public abstract class T extends q.Base implements q.Meter {
}
