package r;

public interface Z extends s.I {
}
