// Booleans, bytes, chars and shorts, as parameters and as results.
public class Small {
    static byte bytes(byte a, byte b) {
        return (byte) (a + b);
    }

    static short shorts(short a, int b) {
        return (short) (a * b);
    }

    static char chars(char a, int b) {
        return (char) (a + b);
    }

    static boolean even(int a) {
        return a % 2 == 0;
    }

    static boolean logic(boolean a, boolean b, boolean c) {
        return a && !b || (b ^ c);
    }

    static boolean between(long a, byte low, short high) {
        return low <= a && a < high;
    }

    static char upper(char letter) {
        return letter >= 'a' && letter <= 'z' ? (char) (letter - 32) : letter;
    }

    static int signs(byte a, short b, char c) {
        return a + b * 2 + c * 3;
    }
}
