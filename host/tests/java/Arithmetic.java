// Ints: arithmetic, bits, shifts and comparisons.
public class Arithmetic {
    static int mean(int a, int b) {
        return (a + b) / 2;
    }

    static int polynomial(int x) {
        return 3 * x * x - 100000 * x + 7;
    }

    static int remainders(int a, int b) {
        return a % b * 1000 + a / b;
    }

    static int bits(int a, int b) {
        return (a & b) ^ (a | ~b) + (a << 3) - (b >> 2) + (a >>> 5);
    }

    static int shifts(int value, int count) {
        return (value << count) + (value >> count) + (value >>> count);
    }

    static int greatest(int a, int b, int c) {
        int most = a > b ? a : b;
        return c >= most ? c : most;
    }

    static int sign(int a) {
        if (a < 0) {
            return -1;
        }
        return a == 0 ? 0 : 1;
    }

    static void nothing(int a) {
        a++;
    }

    static int isNull(Object object, String text) {
        return object == null && text == null ? 1 : 0;
    }

    static Object none(int a) {
        return null;
    }
}
