import java.io.BufferedOutputStream;
import java.io.DataOutputStream;
import java.io.IOException;
import java.io.PrintWriter;
import java.nio.file.Files;
import java.nio.file.Path;
import java.util.ArrayList;
import java.util.Arrays;
import java.util.List;
import java.util.Map;
import java.util.TreeMap;

/**
 * Sheets with good and bad exception tables, and what is owed for each, by the Java virtual machine that runs this.
 *
 * <p>The method divides by 0, and each byte of its code is an instruction. So the virtual machine refuses a table as no class file's (JVMS 4.7.3) where 33
 * is owed, and for nothing else. Good tables with which its verifier refuses the method are left out.
 *
 * <p>First a fixed list, then COUNT at random. CASES and ENDS are as of tools/jvm/methods.
 *
 * <p>Usage: tools/jvm/tables SEED COUNT CASES ENDS
 */
public final class Tables {
  private static final String[] REASONS = {"Illegal exception table range", "Illegal exception table handler", "Catch type in exception table"};
  private static final int LAST = 65535;
  private static final List<Sample.Constant> POOL = List.of(
      new Sample.Constant(1, 'L', 1, "java/lang/ArithmeticException"), new Sample.Constant(2, 'L', 0, "java/lang/Error"),
      new Sample.Constant(3, 'I', 1, null), new Sample.Constant(4, 'F', 1, null), new Sample.Constant(5, 'J', 1, null),
      new Sample.Constant(7, 'D', 1, null), new Sample.Constant(10, 'L', 1, "java/lang/Throwable"));
  private static final int[] TYPES = {0, 1, 2, 3, 4, 5, 6, 7, 8, 9, 10, 1000, LAST}; // those between are of the class file's own constants

  private final DataOutputStream cases;
  private final PrintWriter ends;
  private final Map<String, Integer> tallies = new TreeMap<>();

  private Tables(DataOutputStream cases, PrintWriter ends) {
    this.cases = cases;
    this.ends = ends;
  }

  public static void main(String[] words) throws Exception {
    if (words.length != 4) {
      System.err.println("usage: tools/jvm/tables SEED COUNT CASES ENDS");
      System.exit(2);
    }
    try (DataOutputStream cases = new DataOutputStream(new BufferedOutputStream(Files.newOutputStream(Path.of(words[2]))));
        PrintWriter ends = new PrintWriter(Files.newBufferedWriter(Path.of(words[3])))) {
      Tables all = new Tables(cases, ends);
      all.fixed();
      for (int i = 0; i < Integer.parseInt(words[1]); i++) all.random(Dice.of(Long.parseLong(words[0]), i));
      all.tallies.forEach((what, n) -> System.out.println(what + ": " + n));
      if (all.tallies.size() != REASONS.length + 3) System.exit(1); // each reason, and each end of a good one
    }
  }

  // ---- methods: some NOP, 1 by 0, an IRETURN, some NOP, and a handler that returns -1

  private static byte[] code(int before, int after) {
    byte[] out = new byte[before + after + 7];
    System.arraycopy(new byte[] {4, 3, 108, (byte) 172}, 0, out, before, 4);
    System.arraycopy(new byte[] {87, 2, (byte) 172}, 0, out, before + after + 4, 3);
    return out;
  }

  private void put(byte[] code, List<Sample.Constant> pool, List<Sample.Handler> handlers) throws Exception {
    Sample sample = new Sample(2, 0, code, pool, "", List.of(), 'I', List.of(), null, handlers);
    String end = end(sample);
    tallies.merge(end.replaceAll(" [0-9A-F]+$", ""), 1, Integer::sum);
    if (end.startsWith("left out")) return;
    byte[] sheet = sample.sheet();
    cases.writeInt(sheet.length);
    cases.write(sheet);
    ends.print((end.startsWith("33") ? "sheet 33" : end) + "\n");
  }

  private static String end(Sample sample) throws Exception {
    try {
      return HotSpot.end(sample);
    } catch (ClassFormatError | VerifyError e) {
      for (String known : REASONS) if (e.getMessage().startsWith(known)) return "33: " + known;
      if (e.getMessage().startsWith("(class: T, method: run")) return "left out, as the verifier refuses the method"; // so also handler 0
      throw e;
    }
  }

  // ---- a fixed list: every number of one entry around its limits

  private void fixed() throws Exception {
    byte[] code = code(0, 0);
    int length = code.length, handler = 4;
    for (int start = 0; start <= length + 1; start++) {
      for (int end = 0; end <= length + 1; end++) put(code, List.of(), List.of(new Sample.Handler(start, end, handler, 0)));
    }
    for (int far : new int[] {255, 256, 32767, 32768, LAST - 1, LAST}) {
      for (int[] n : new int[][] {{far, far, handler}, {0, far, handler}, {far, length, handler}, {0, length, far}}) {
        put(code, List.of(), List.of(new Sample.Handler(n[0], n[1], n[2], 0)));
      }
    }
    for (int at = 0; at <= length + 1; at++) put(code, List.of(), List.of(new Sample.Handler(0, 3, at, 0)));
    for (int type : TYPES) put(code, POOL, List.of(new Sample.Handler(0, 3, handler, type)));
  }

  // ---- at random: some entries, and often one number of them changed

  private void random(Dice dice) throws Exception {
    int before = dice.below(4), after = dice.below(4), length = before + after + 7;
    int[][] entries = new int[dice.from(1, 4)][];
    for (int i = 0; i < entries.length; i++) {
      int start = dice.below(length);
      entries[i] = new int[] {start, dice.from(start + 1, length), dice.from(before + 4, before + 4 + after), dice.pick(0, 0, 1, 2, 10)};
    }
    if (dice.chance(60)) change(entries[dice.below(entries.length)], length, dice);
    List<Sample.Handler> handlers = new ArrayList<>();
    for (int[] n : entries) handlers.add(new Sample.Handler(n[0], n[1], n[2], n[3]));
    boolean pooled = Arrays.stream(entries).anyMatch(n -> n[3] > 0);
    put(code(before, after), pooled ? POOL : List.of(), handlers);
  }

  private static void change(int[] entry, int length, Dice dice) {
    int which = dice.below(4), near = dice.pick(length - 1, length, length + 1, dice.below(LAST + 1), LAST);
    entry[which] = switch (which) {
      case 0 -> dice.pick(entry[1] - 1, entry[1], entry[1] + 1, near);
      case 1 -> dice.pick(Math.max(0, entry[0] - 1), entry[0], entry[0] + 1, near);
      case 2 -> near;
      default -> TYPES[dice.below(TYPES.length)];
    };
  }
}
