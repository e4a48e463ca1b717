package p;

public class Select {
    public static byte f(short a, byte b) {
        byte found = 0;
        switch (a << 8 | b) {
            case 0x0102:
                found = 1;
                break;
            default:
        }
        return found;
    }
}
