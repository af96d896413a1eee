import java.util.List;
import java.util.Map;
import java.util.TreeMap;
import java.util.TreeSet;

/** What stands in the methods: opcodes, WIDE forms, switches by alignment, forms of the stack instructions, how they end. */
final class Coverage {
  int refused;
  private int methods;
  private long bytes, instructions;
  private final int[] opcodes = new int[256]; // methods that have it
  private final Map<String, Integer> tallies = new TreeMap<>();

  static boolean core(int opcode) {
    return opcode <= 45 || opcode >= 54 && opcode <= 78 || opcode >= 87 && opcode <= 167 || opcode >= 170 && opcode <= 177 || opcode == 196
        || opcode >= 198 && opcode <= 200;
  }

  void add(Sample sample, byte[] sheet, String end) {
    methods++;
    bytes += sheet.length;
    TreeSet<String> marks = new TreeSet<>();
    boolean[] has = new boolean[256];
    for (int pc = 0; pc < sample.code().length; pc += length(sample.code(), pc)) {
      instructions++;
      has[sample.code()[pc] & 255] = true;
      mark(sample.code(), pc, marks);
    }
    for (int op = 0; op < 256; op++) if (has[op]) opcodes[op]++;
    for (String form : sample.forms()) marks.add("stack form " + form);
    marks.add("end: " + end.replaceAll(" [0-9A-F]+$", ""));
    for (String mark : marks) tallies.merge(mark, 1, Integer::sum);
  }

  private static void mark(byte[] code, int pc, TreeSet<String> marks) {
    int opcode = code[pc] & 255, second = opcode == 196 ? code[pc + 1] & 255 : 0;
    if (opcode == 196) marks.add("WIDE " + second);
    if (opcode == 196 && code[pc + 2] != 0) marks.add("WIDE " + second + " above 255");
    if ((opcode == 19 || opcode == 20) && code[pc + 1] != 0) marks.add("constant " + opcode + " above 255");
    if (opcode == 132 && code[pc + 2] < 0) marks.add("IINC below 0");
    if (second == 132 && code[pc + 4] < 0) marks.add("WIDE IINC below 0");
    if (opcode == 170 || opcode == 171) {
      int at = (pc / 4 + 1) * 4, entries = opcode == 170 ? word(code, at + 8) - word(code, at + 4) + 1 : word(code, at + 4);
      marks.add("switch " + opcode + " at offset modulo 4: " + pc % 4);
      marks.add("switch " + opcode + " entries: " + (entries < 2 ? "" + entries : entries < 20 ? "2 to 19" : "20 and more"));
      for (int i = 0; i < entries; i++) if (word(code, opcode == 170 ? at + 12 + 4 * i : at + 12 + 8 * i) < 0) marks.add("switch " + opcode + " jumps back");
    }
    if (opcode >= 153 && opcode <= 167 || opcode >= 198 && opcode <= 200) marks.add("jump " + opcode + (code[pc + 1] < 0 ? " back" : " forward"));
  }

  static int length(byte[] code, int pc) {
    int opcode = code[pc] & 255, at = (pc / 4 + 1) * 4;
    if (opcode == 170) return at + 12 + 4 * (word(code, at + 8) - word(code, at + 4) + 1) - pc;
    if (opcode == 171) return at + 8 + 8 * word(code, at + 4) - pc;
    if (opcode == 196) return (code[pc + 1] & 255) == 132 ? 6 : 4;
    if (opcode == 200) return 5;
    if (opcode == 16 || opcode == 18 || opcode >= 21 && opcode <= 25 || opcode >= 54 && opcode <= 58) return 2;
    if (opcode == 17 || opcode == 19 || opcode == 20 || opcode == 132 || opcode >= 153 && opcode <= 167 || opcode >= 198) return 3;
    return 1;
  }

  private static int word(byte[] code, int at) {
    return code[at] << 24 | (code[at + 1] & 255) << 16 | (code[at + 2] & 255) << 8 | code[at + 3] & 255;
  }

  /** What should stand in the methods and stands in none. */
  private TreeSet<String> missing() {
    TreeSet<String> want = new TreeSet<>(List.of("IINC below 0", "WIDE IINC below 0", "constant 19 above 255", "constant 20 above 255"));
    for (int op : new int[] {21, 22, 23, 24, 25, 54, 55, 56, 57, 58, 132}) want.addAll(List.of("WIDE " + op, "WIDE " + op + " above 255"));
    for (int op = 153; op <= 200; op++) if (op <= 167 || op >= 198) want.addAll(List.of("jump " + op + " back", "jump " + op + " forward"));
    for (int op = 170; op <= 171; op++) {
      for (int i = 0; i < 4; i++) want.add("switch " + op + " at offset modulo 4: " + i);
      for (String some : new String[] {"jumps back", "entries: 1", "entries: 2 to 19", "entries: 20 and more"}) want.add("switch " + op + " " + some);
    }
    want.add("switch 171 entries: 0");
    for (String form : Steps.FORMS) want.add("stack form " + form);
    for (String kind : new String[] {"int", "long", "float", "float nan", "double", "double nan", "ref", "void"}) want.add("end: return " + kind);
    want.add("end: throw arithmetic");
    want.removeAll(tallies.keySet());
    for (int op = 0; op < 256; op++) if (core(op) && opcodes[op] == 0) want.add("opcode " + op);
    return want;
  }

  boolean complete() {
    return missing().isEmpty();
  }

  void print(boolean everything) {
    if (everything) {
      for (int op = 0; op < 256; op++) if (core(op)) System.out.println("opcode " + op + ": " + opcodes[op]);
      tallies.forEach((mark, n) -> System.out.println(mark + ": " + n));
      System.out.println("missing: " + (complete() ? "nothing" : missing()));
    }
    System.out.println(methods + " methods, " + instructions + " instructions, " + bytes + " bytes of sheets, " + refused + " refused by the verifier");
  }
}
