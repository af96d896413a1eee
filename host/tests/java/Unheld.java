// Methods that a sheet cannot hold, or that a name does not say.
public class Unheld {
    static int count = 3;

    static int field(int a, int b) {
        return a * b + count;
    }

    static String text() {
        return "text";
    }

    static int item(int[] items) {
        return items[0];
    }

    static int isNull(int[] items) {
        return items == null ? 1 : 0;
    }

    static int add(int a, int b) {
        return a + b;
    }

    static long add(long a, long b) {
        return a + b;
    }

    static native int outside();

    int instance() {
        return 1;
    }

    static byte small(byte a) {
        return a;
    }
}
