// Loops: counted, with a condition, nested, with break and continue.
public class Loops {
    static int sum(int from, int to) {
        int sum = 0;
        for (int i = from; i <= to; i++) {
            sum += i;
        }
        return sum;
    }

    static int divisor(int a, int b) {
        while (b != 0) {
            int rest = a % b;
            a = b;
            b = rest;
        }
        return a;
    }

    static int collatz(int n) {
        int steps = 0;
        do {
            n = n % 2 == 0 ? n / 2 : 3 * n + 1;
            steps++;
        } while (n > 1);
        return steps;
    }

    static int primes(int below) {
        int count = 0;
        outer:
        for (int n = 2; n < below; n++) {
            for (int d = 2; d * d <= n; d++) {
                if (n % d == 0) {
                    continue outer;
                }
            }
            count++;
        }
        return count;
    }

    static int root(int square) {
        int root = 0;
        while (true) {
            if ((root + 1) * (root + 1) > square) {
                break;
            }
            root++;
        }
        return root;
    }

    // Steps above 127 need a wide iinc.
    static int wideSteps(int limit) {
        int at = -1000;
        while (at < limit) {
            at += 300;
        }
        at -= 30000;
        return at;
    }

    static int bitCount(int value) {
        int count = 0;
        for (; value != 0; value &= value - 1) {
            count++;
        }
        return count;
    }
}
