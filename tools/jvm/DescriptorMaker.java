import java.nio.charset.StandardCharsets;
import java.util.ArrayList;
import java.util.List;

/** Makes descriptors, good ones and others, as texts in which each char stands for one byte. */
final class DescriptorMaker {
  private static final String BASE = "BCDFIJSZ", LETTERS = "abzAZ09_$-VLIJB", ODD = "()<>:*! \1\n\177", SIGNS = "()[;/.LV" + BASE;
  private static final String[] UNITS = { // neighbours of the limits of modified UTF-8, and two surrogates
    "\u00C0\u0080", "\u00C2\u0080", "\u00DF\u00BF", "\u00E0\u00A0\u0080", "\u00ED\u00A0\u0080", "\u00ED\u00BF\u00BF", "\u00EF\u00BF\u00BF"
  };
  private static final int[] BYTES = {0, 0x7F, 0x80, 0xBF, 0xC0, 0xC1, 0xC2, 0xDF, 0xE0, 0xE1, 0xED, 0xEF, 0xF0, 0xF4, 0xF8, 0xFE, 0xFF};
  private static final String[] NEXT = {"\177", "\u0080", "\u00BF", "\u00C0"}; // neighbours of the limits of a second byte
  private static final int FULL = 255; // places, and dimensions, at most

  private final Dice dice;

  DescriptorMaker(Dice dice) {
    this.dice = dice;
  }

  static byte[] bytes(String text) {
    return text.getBytes(StandardCharsets.ISO_8859_1);
  }

  /** A good one, one that may be too long, or one with something changed. */
  String some() {
    return switch (dice.weighted(40, 1, 1, 58)) {
      case 0 -> good();
      case 1 -> "(" + places(dice.from(FULL - 3, FULL + 3)) + ")" + result();
      case 2 -> dice.chance(50) ? "(" + deep() + ")V" : "(I)" + deep();
      default -> changed();
    };
  }

  // ---- good ones

  String good() {
    StringBuilder out = new StringBuilder("(");
    for (int n = dice.pick(0, 0, 1, 1, 2, 2, 3, 4, 6, dice.from(0, 20)); n > 0; n--) out.append(type());
    return out + ")" + result();
  }

  private String result() {
    return dice.chance(15) ? "V" : type();
  }

  private String type() {
    return switch (dice.weighted(50, 30, 20)) {
      case 0 -> "" + dice.pick(BASE);
      case 1 -> "L" + name() + ";";
      default -> "[".repeat(dice.from(1, 3)) + (dice.chance(50) ? dice.pick(BASE) : "L" + name() + ";");
    };
  }

  private String name() {
    List<String> parts = new ArrayList<>();
    for (int n = dice.pick(1, 1, 2, 3); n > 0; n--) {
      StringBuilder part = new StringBuilder();
      for (int m = dice.from(1, 4); m > 0; m--) part.append(unit());
      parts.add(part.toString());
    }
    return String.join("/", parts);
  }

  private String unit() {
    return switch (dice.weighted(70, 14, 8, 8)) {
      case 0 -> "" + dice.pick(LETTERS);
      case 1 -> "" + dice.pick(ODD);
      case 2 -> UNITS[dice.below(UNITS.length)];
      default -> encoded(dice.from(0x80, 0xFFFF));
    };
  }

  private static String encoded(int unit) {
    if (unit < 0x800) return "" + (char) (0xC0 | unit >> 6) + (char) (0x80 | unit & 0x3F);
    return "" + (char) (0xE0 | unit >> 12) + (char) (0x80 | unit >> 6 & 0x3F) + (char) (0x80 | unit & 0x3F);
  }

  // ---- limits

  /** Parameters of this many places together. */
  private String places(int count) {
    StringBuilder out = new StringBuilder();
    int left = count;
    while (left > 0) {
      boolean wide = left > 1 && dice.chance(60);
      out.append(wide ? dice.pick("JD") : dice.chance(90) ? dice.pick("BCFISZ") : "[" + dice.pick(BASE));
      left -= wide ? 2 : 1;
    }
    return out.toString();
  }

  private String deep() {
    return "[".repeat(dice.from(FULL - 1, FULL + 1)) + (dice.chance(80) ? dice.pick(BASE) : "La;");
  }

  // ---- a good one, changed

  private String changed() {
    StringBuilder out = new StringBuilder(good());
    for (int n = 1 + dice.weighted(75, 18, 7); n > 0; n--) change(out);
    return out.toString();
  }

  private void change(StringBuilder text) {
    int at = dice.below(text.length() + 1);
    if (at == text.length()) {
      text.append(sign());
      return;
    }
    switch (dice.below(7)) {
      case 0 -> text.setCharAt(at, sign());
      case 1 -> text.deleteCharAt(at);
      case 2 -> text.insert(at, sign());
      case 3 -> text.insert(at, text.charAt(at));
      case 4 -> text.insert(at, text.substring(at, dice.from(at, text.length())));
      case 5 -> text.setLength(at);
      default -> text.setCharAt(at, (char) (text.charAt(at) ^ 1 << dice.below(8)));
    }
  }

  private char sign() {
    return switch (dice.weighted(60, 30, 10)) {
      case 0 -> dice.pick(SIGNS);
      case 1 -> (char) dice.pick(BYTES);
      default -> (char) dice.below(256);
    };
  }

  // ---- a fixed list

  private static final String[] TEXTS = {
    "", "(", ")", "()", "I", "V", "()V", "()VV", "()V ", " ()V", "()II", "())V", "(()V", "()()V", ")(V", "V()", "()v", "(i)V", "I)V", "(I", "(IV", "[()V",
    "(V)V", "(IV)V", "([V)V", "()[V", "()[[V", "([)V", "([[)V", "()[", "([", "(I[)V", "()LV;", "(LV;)V", "()[LV;",
    "(L;)V", "()L;", "([L;)V", "(L)V", "()L", "(La)V", "()La", "(La;b)V", "(La;;)V", "()La;;", "()La;b", "(;)V", "(a;)V", "(aLa;)V",
    "(L/;)V", "(L//;)V", "(L/a;)V", "(La/;)V", "(La//b;)V", "(La/b/;)V", "(La/b/c;)V", "()L/;", "()La/;", "()La/b;", "(La.b;)V", "(L.;)V", "(L..;)V",
    "(L[I;)V", "(L[a;)V", "(La[;)V", "()L[I;", "(LI;)V", "(LLa;;)V", "(LLa;)V", "(L(;)V", "(L);)V", "(L)V;)V", "()L)V;", "(L<init>;)V", "(L-;)V",
    "(L ;)V", "([[[La/b;[[IJ[DLc;)[[Ld;", "(BCDFIJSZ)V", "(La;Lb;)V", "(La;ILb;)J", "(I)V\0", "(I\0)V", "\u00EF\u00BB\u00BF()V", "(La\u00C2\u0080)V"
  };

  /** What stands at the limits, and each byte as a parameter, as a return type and in a name. */
  static List<String> fixed() {
    List<String> out = new ArrayList<>(List.of(TEXTS));
    for (int b = 0; b < 256; b++) {
      char c = (char) b;
      out.addAll(List.of("(" + c + ")V", "()" + c, "(La" + c + "c;)V"));
    }
    units(out);
    limits(out);
    return out;
  }

  /** Sequences of bytes: each first one, with the neighbours of the limits after it. */
  private static void units(List<String> out) {
    for (char first : "\u0080\u009F\u00A0\u00BF".toCharArray()) for (String next : NEXT) out.add("(L" + first + next + ";)V");
    for (char first = 0xC0; first < 0xE0; first++) for (String next : NEXT) out.add("(L" + first + next + ";)V");
    for (char first = 0xE0; first < 0x100; first++) {
      for (String next : NEXT) out.add("(L" + first + next + "\u0080;)V");
      for (String rest : new String[] {"\u009F\u00BF", "\u00A0\u0080", "\u00A0\u00C0", "\u00A0", "\u00A0\u0080\u0080"}) out.add("(L" + first + rest + ";)V");
    }
    out.add("(L\u00F0\u0090\u0080\u0080;)V"); // UTF-8's own form above FFFF
    out.add("(L\u00ED\u00A0\u0080\u00ED\u00B0\u0080;)V"); // and the modified one
    out.add("(L\u00C0\u00AF;)V"); // a slash, a semicolon in two bytes
    out.add("(L\u00C0\u00BB;)V");
  }

  private static void limits(List<String> out) {
    for (int n : new int[] {FULL - 1, FULL, FULL + 1}) {
      for (String one : new String[] {"I", "[J", "La;"}) out.add("(" + one.repeat(n) + ")V");
      for (String wide : new String[] {"J", "D"}) {
        out.add("(" + wide.repeat(n / 2) + "I".repeat(n % 2) + ")J");
        out.add("(F" + wide.repeat(n / 2) + (n % 2 == 0 ? "" : wide) + ")D"); // n and one more
      }
      for (String component : new String[] {"I", "J", "La;"}) out.addAll(List.of("(" + "[".repeat(n) + component + ")V", "()" + "[".repeat(n) + component));
      out.add("(" + "[".repeat(n) + "V)V");
      out.add("(" + "[".repeat(n) + ")V");
      out.add("([" + "[".repeat(n - 1) + "D[" + "[".repeat(n - 1) + "D)I");
    }
    out.add("(L" + "a/".repeat(1000) + "b;)V");
    out.add("(L" + "a/".repeat(1000) + ";)V");
  }
}
