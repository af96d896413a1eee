// Longs: arithmetic, shifts, comparisons, conversions.
public class Longs {
    static long factorial(int n) {
        long product = 1;
        for (int i = 2; i <= n; i++) {
            product *= i;
        }
        return product;
    }

    static long mix(long a, int count, long b) {
        return (a << count) ^ (b >>> count) + (a >> 1) | 0x123456789ABCDEFL;
    }

    static long parts(long a, long b) {
        return a / b * 1000003L + a % b - (a & ~b);
    }

    static int compare(long a, long b) {
        return a < b ? -1 : a > b ? 1 : 0;
    }

    static int low(long a) {
        return (int) (a + 1) ^ (int) (a >> 32);
    }

    static long fibonacci(int n) {
        long a = 0, b = 1;
        for (int i = 0; i < n; i++) {
            long next = a + b;
            a = b;
            b = next;
        }
        return a;
    }

    static long power(long base, int exponent) {
        long result = 1;
        for (; exponent > 0; exponent >>= 1) {
            if ((exponent & 1) != 0) {
                result *= base;
            }
            base *= base;
        }
        return -result;
    }
}
