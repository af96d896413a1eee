/**
 * Makes a method with a descriptor, whose return type may be narrower than the int that its code returns.
 *
 * <p>The code reads references of one type only, so that any of them may be returned where two ways meet. Parameters of other reference types take their
 * places and are not read.
 */
final class TypedMaker extends Maker {
  private static final String[] TYPES = {"Z", "B", "C", "S", "I", "J", "F", "D", "V", "L", "["};
  private static final String[] NAMES = {"java/lang/Object", "java/lang/Object", "java/lang/String", "T", "a/b/C", "V", "$/_-0", "J/I"};
  private static final int FULL = 255; // places, at most
  private static final int LONGEST = 120; // bytes of code, so that the list stays small

  private final String type; // that is returned
  private final String reference; // the type of the references that the code reads
  private final StringBuilder parameters = new StringBuilder();

  private TypedMaker(Dice dice, int span) {
    super(dice, span);
    String first = TYPES[dice.weighted(16, 16, 16, 16, 8, 7, 5, 5, 5, 5, 5)];
    reference = first.equals("[") || !first.equals("L") && dice.chance(50) ? array() : name();
    type = first.equals("L") || first.equals("[") ? reference : first;
  }

  static Sample make(Dice dice) {
    while (true) {
      TypedMaker maker = new TypedMaker(dice, span(dice));
      Sample sample = maker.method();
      if (maker.fits(sample) && sample.code().length < LONGEST) return sample;
    }
  }

  private static int span(Dice dice) {
    return switch (dice.weighted(200, 24, 1)) {
      case 0 -> dice.from(2, 12);
      case 1 -> dice.from(12, 60);
      default -> FULL + 20;
    };
  }

  @Override
  char result() {
    return Descriptor.kind(type);
  }

  @Override
  int items() {
    return dice.chance(85) ? dice.from(1, 5) : dice.from(6, 14);
  }

  @Override
  String descriptor() {
    return "(" + parameters + ")" + type;
  }

  // ---- parameters

  @Override
  void given() {
    int count = span > FULL ? FULL : dice.pick(0, 1, 1, 2, 2, 3, 3, 4, 5, 6);
    for (int n = count; n > 0; n--) parameter(dice.pick("ZBCSIIIJJFFDDAAX"));
  }

  /** A parameter of a type: A is the type of the references that are read, X is another reference. */
  private void parameter(char first) {
    String text = first == 'A' ? reference : first == 'X' ? dice.chance(40) ? name() : array() : "" + first;
    char kind = Descriptor.kind(text);
    int at = Frame.size(kinds.toString()), places = Frame.size(kind);
    if (at + places > Math.min(span, FULL)) return;
    if (kind != 'A' || text.equals(reference)) code.frame.store(at, kind);
    kinds.append(kind);
    parameters.append(text);
    arguments.add(kind == 'A' ? word(text) : narrow(text.charAt(0), kind));
  }

  private long word(String text) {
    return HotSpot.known(text) ? dice.pick(0, 1, 2, 0x80000000, -1) & 0xFFFFFFFFL : 0;
  }

  /** A value that a Java program can hand over. */
  private long narrow(char first, char kind) {
    long value = Values.some(kind, dice);
    return kind == 'I' ? Values.narrow(first, (int) value) : value;
  }

  // ---- types

  private String name() {
    return "L" + NAMES[dice.below(NAMES.length)] + ";";
  }

  private String array() {
    String component = dice.chance(50) ? name() : "" + dice.pick("BCDFIJSZ");
    return "[".repeat(dice.chance(97) ? dice.from(1, 4) : dice.from(5, 20)) + component;
  }
}
