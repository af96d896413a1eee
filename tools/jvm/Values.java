/** Values that matter: limits, neighbours of limits, and some at random. Floats and doubles as bits. */
final class Values {
  private static final int[] INTS = {
    0, 1, -1, 2, 3, 5, 7, 10, -2, -3, 31, 32, 33, 63, 64, 65, 100, 127, 128, 129, -127, -128, -129, 255, 256, 257, -256, 32767, 32768, -32768,
    -32769, 65535, 65536, -65536, 16777215, 16777216, 16777217, 16777219, -16777217, 33554431, 0x7FFFFF7F, 0x7FFFFFBF, 0x7FFFFFC0, 0x7FFFFFFE,
    0x7FFFFFFF, 0x80000000, 0x80000001, 0x55555555, 0xAAAAAAAA, 0x0000FF80, 0x00FF00FF
  };
  private static final long[] LONGS = {
    0, 1, -1, 2, -2, 3, 7, 10, 31, 32, 33, 63, 64, 255, 256, 65536, 0x7FFFFFFFL, 0x80000000L, -0x80000000L, -0x80000001L, 0xFFFFFFFFL, 0x100000000L,
    -0x100000000L, 0x0000000180000000L, 16777217, 0x1FFFFFFFFFFFFFL, 0x20000000000000L, 0x20000000000001L, 0x20000000000003L, 0x7FFFFFBFFFFFFFFFL,
    0x7FFFFFC000000000L, 0x7FFFFFFFFFFFFC00L, 0x7FFFFFFFFFFFFDFFL, 0x7FFFFFFFFFFFFE00L, 0x7FFFFFFFFFFFFFFEL, Long.MAX_VALUE, Long.MIN_VALUE,
    Long.MIN_VALUE + 1, 0x4000000000000000L, 0xC000000000000000L, 0x5555555555555555L, 0xAAAAAAAAAAAAAAAAL, 0x8000008000000001L
  };
  private static final int[] FLOATS = {
    0, 0x80000000, 0x3F800000, 0xBF800000, 0x3F000000, 0xBF000000, 0x40000000, 0x40400000, 0xC0400000, 0x3FC00000, 0x40200000, 0x7F800000,
    0x00000001, 0x80000001, 0x007FFFFF, 0x807FFFFF, 0x00800000,
    0x80800000, 0x00800001, 0x7F7FFFFF, 0xFF7FFFFF, 0x4B800000, 0x4B800001, 0x4F000000, 0x4EFFFFFF, 0xCF000000, 0xCF000001, 0x5F000000, 0x5EFFFFFF,
    0xDF000000, 0xDF000001, 0x3DCCCCCD, 0x40490FDB, 0x34000000, 0x33800000, 0x3F7FFFFF, 0x3F800001, 0x7F000000, 0x20000000, 0x1FFFFFFF
  };
  private static final long[] DOUBLES = {
    0, 0x8000000000000000L, 0x3FF0000000000000L, 0xBFF0000000000000L, 0x3FE0000000000000L, 0x4000000000000000L, 0x4008000000000000L,
    0xC008000000000000L, 0x4004000000000000L,
    0x0000000000000001L, 0x8000000000000001L, 0x000FFFFFFFFFFFFFL, 0x0010000000000000L,
    0x8010000000000000L, 0x7FEFFFFFFFFFFFFFL, 0xFFEFFFFFFFFFFFFFL, 0x41E0000000000000L, 0x41DFFFFFFFC00000L, 0x41DFFFFFFFE00000L,
    0xC1E0000000000000L, 0xC1E0000000200000L, 0xC1E0000000100000L, 0x43E0000000000000L, 0x43DFFFFFFFFFFFFFL, 0xC3E0000000000000L,
    0xC3E0000000000001L, 0x47EFFFFFE0000000L, 0x47EFFFFFEFFFFFFFL, 0x47EFFFFFF0000000L, 0xC7EFFFFFF0000000L, 0x3690000000000000L,
    0x3690000000000001L, 0x36A0000000000000L, 0x36A8000000000000L, 0xB690000000000000L, 0x380FFFFFC0000000L, 0x380FFFFFE0000000L,
    0x3810000000000000L, 0x3FF0000010000000L, 0x3FF0000030000000L, 0x3FF0000010000001L, 0x4340000000000000L, 0x4340000000000001L,
    0x3FB999999999999AL, 0x400921FB54442D18L, 0x3CA0000000000000L, 0x3FEFFFFFFFFFFFFFL, 0x7FE0000000000000L
  };
  // NaNs, infinities and zeros
  private static final int[] FLOAT_SPECIALS = {0x7FC00000, 0xFFC00000, 0x7FC00001, 0x7F800001, 0xFFBFFFFF, 0x7F800000, 0xFF800000, 0, 0x80000000};
  private static final long[] DOUBLE_SPECIALS = {
    0x7FF8000000000000L, 0xFFF8000000000000L, 0x7FF8000000000005L, 0x7FF0000000000001L, 0x7FF0000000000000L, 0xFFF0000000000000L, 0, 0x8000000000000000L
  };

  private Values() {}

  static int anInt(Dice dice) {
    return switch (dice.weighted(70, 15, 15)) {
      case 0 -> dice.pick(INTS);
      case 1 -> dice.from(-300, 300);
      default -> (int) dice.bits();
    };
  }

  static long aLong(Dice dice) {
    return switch (dice.weighted(65, 15, 10, 10)) {
      case 0 -> dice.pick(LONGS);
      case 1 -> dice.bits();
      case 2 -> dice.bits() >> dice.below(64);
      default -> anInt(dice);
    };
  }

  static int aFloat(Dice dice) {
    return switch (dice.weighted(50, 20, 12, 18)) {
      case 0 -> dice.pick(FLOATS);
      case 1 -> dice.pick(FLOAT_SPECIALS);
      case 2 -> (int) dice.bits();
      default -> dice.below(1 << 23) | dice.from(100, 160) << 23 | dice.below(2) << 31; // not far from 1
    };
  }

  static long aDouble(Dice dice) {
    return switch (dice.weighted(50, 20, 12, 18)) {
      case 0 -> dice.pick(DOUBLES);
      case 1 -> dice.pick(DOUBLE_SPECIALS);
      case 2 -> dice.bits();
      default -> dice.bits() >>> 12 | (long) dice.from(980, 1070) << 52 | (long) dice.below(2) << 63; // not far from 1
    };
  }

  /** What is left of an int where this type is returned (JVMS 6.5.ireturn). */
  static int narrow(char type, int value) {
    return switch (type) {
      case 'Z' -> value & 1;
      case 'B' -> (byte) value;
      case 'C' -> (char) value;
      case 'S' -> (short) value;
      default -> value;
    };
  }

  /** The bits of some value of a kind: I, J, F or D. */
  static long some(char kind, Dice dice) {
    return switch (kind) {
      case 'I' -> anInt(dice);
      case 'J' -> aLong(dice);
      case 'F' -> aFloat(dice);
      default -> aDouble(dice);
    };
  }
}
