// Divisions by 0: caught, caught elsewhere, and thrown.
public class Caught {
    static int quotient(int a, int b) {
        try {
            return a / b;
        } catch (ArithmeticException e) {
            return -1;
        }
    }

    static int superclass(int a, int b) {
        int result = 7;
        try {
            result = a % b;
        } catch (RuntimeException e) {
            result *= 2;
        }
        return result + 1;
    }

    static int first(int a, int b) {
        try {
            return 100 / a / b;
        } catch (IllegalStateException | NullPointerException e) {
            return 1;
        } catch (ArithmeticException e) {
            return 2;
        } catch (Exception e) {
            return 3;
        }
    }

    static long nested(long a, long b) {
        try {
            try {
                return a / b;
            } catch (NullPointerException e) {
                return -1L;
            }
        } catch (Throwable e) {
            return a % (b + 1) * 1000;
        }
    }

    static int general(int a, int b) {
        try {
            return a % b;
        } catch (Error e) {
            return -2;
        } catch (Exception e) {
            return a;
        }
    }

    static int uncaught(int a, int b) {
        try {
            return a / b;
        } catch (IllegalArgumentException e) {
            return -5;
        }
    }

    static int skipped(int from, int to) {
        int sum = 0;
        for (int i = from; i <= to; i++) {
            try {
                sum += 60 / i;
            } catch (ArithmeticException e) {
                continue;
            }
            sum += 1000;
        }
        return sum;
    }

    static int inHandler(int a, int b) {
        try {
            return a / b;
        } catch (ArithmeticException e) {
            return b / a;
        }
    }
}
