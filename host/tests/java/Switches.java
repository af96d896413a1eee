// Switches: tables, keys, on chars, with fall-through, nested.
public class Switches {
    static int days(int month) {
        switch (month) {
            case 2:
                return 28;
            case 4:
            case 6:
            case 9:
            case 11:
                return 30;
            default:
                return 31;
        }
    }

    static int sparse(int key) {
        switch (key) {
            case -2000000000:
                return 1;
            case 0:
                return 2;
            case 1000:
                return 3;
            case 2147483647:
                return 4;
            default:
                return -1;
        }
    }

    static int fall(int from) {
        int sum = 0;
        switch (from) {
            case -1:
                sum += 1;
            case 0:
                sum += 20;
            case 1:
                sum += 300;
                break;
            case 2:
                sum += 4000;
        }
        return sum;
    }

    static int digit(char letter) {
        return switch (letter) {
            case '0', '1', '2', '3', '4', '5', '6', '7', '8', '9' -> letter - '0';
            case 'a', 'A' -> 10;
            case '\n' -> -2;
            default -> -1;
        };
    }

    static long nested(int outer, int inner) {
        switch (outer) {
            case 1:
                switch (inner) {
                    case 1:
                        return 11L;
                    case 2:
                        return 12L;
                }
                return 10L;
            case 2:
                return 20L + inner;
            default:
                return 5000000000L;
        }
    }
}
