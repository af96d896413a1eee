// Floats and doubles: arithmetic, comparisons, conversions.
public class Floats {
    static float third(float a, float b) {
        return (a + b * 2.5f - 0.1f) / 3f;
    }

    static double hypotenuse(double a, double b) {
        double square = a * a + b * b, root = square / 2 + 0.5;
        for (int i = 0; i < 20; i++) {
            root = (root + square / root) / 2.0;
        }
        return root;
    }

    static double rests(double a, double b) {
        return a % b - -b % 0.7;
    }

    static int order(double a, double b) {
        int order = 0;
        if (a < b) {
            order += 1;
        }
        if (a >= b) {
            order += 10;
        }
        if (a != b) {
            order += 100;
        }
        return order;
    }

    static int orderOfFloats(float a, float b) {
        return a > b ? 1 : a <= b ? 2 : 3;
    }

    static long rounded(float a) {
        return (long) (a * 1e10f) + (int) a;
    }

    static int cut(double a) {
        return (int) a ^ (int) (long) a;
    }

    static float narrowed(double a, long b, int c) {
        return (float) a + b - c;
    }

    static double widened(float a, long b) {
        return a + (double) b + 1e-5;
    }
}
