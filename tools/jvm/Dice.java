/** A seeded random generator (SplitMix64). Its own, so that a seed gives the same methods on every version of Java. */
final class Dice {
  private long state;

  Dice(long seed) {
    state = seed;
  }

  /** One generator for each case of a seed, so that a case does not depend on those before it. */
  static Dice of(long seed, long number) {
    return new Dice(new Dice(seed).bits() + new Dice(~number).bits());
  }

  long bits() {
    state += 0x9E3779B97F4A7C15L;
    long z = state;
    z = (z ^ (z >>> 30)) * 0xBF58476D1CE4E5B9L;
    z = (z ^ (z >>> 27)) * 0x94D049BB133111EBL;
    return z ^ (z >>> 31);
  }

  int below(int n) {
    return (int) ((bits() >>> 33) % n);
  }

  /** From low to high, both included. */
  int from(int low, int high) {
    return low + below(high - low + 1);
  }

  boolean chance(int percent) {
    return below(100) < percent;
  }

  int pick(int... of) {
    return of[below(of.length)];
  }

  long pick(long[] of) {
    return of[below(of.length)];
  }

  char pick(String of) {
    return of.charAt(below(of.length()));
  }

  <T> T pick(java.util.List<T> of) {
    return of.get(below(of.size()));
  }

  /** The place of a weight, each as likely as it is heavy. */
  int weighted(int... weights) {
    int sum = 0, place = 0;
    for (int w : weights) sum += w;
    int left = below(sum);
    while (left >= weights[place]) left -= weights[place++];
    return place;
  }
}
