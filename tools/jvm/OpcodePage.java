import com.sun.tools.classfile.Instruction;
import com.sun.tools.classfile.Opcode;
import java.util.ArrayList;
import java.util.List;

/**
 * The page of opcodes as the Java virtual machine and javap have it: `opcode length popped pushed`, a line for each of the 256.
 *
 * <p>A length is that of javap's own table. The places popped are the fewest with which HotSpot's verifier takes the instruction, whatever the kinds of the
 * values; the places pushed are those that can then be popped, and not one more. Which opcodes are core, and the marks 0, 254 and 255, are the papers'.
 */
final class OpcodePage {
  private static final int LDC = 18, LDC2_W = 20, IINC = 132, TABLESWITCH = 170, WIDE = 196, POP = 87, POP2 = 88, RETURN = 177;
  private static final int MOST_POPPED = 4;

  private final int opcode, length;

  private OpcodePage(int opcode, int length) {
    this.opcode = opcode;
    this.length = length;
  }

  public static void main(String[] args) throws Throwable {
    for (int opcode = 0; opcode < 256; opcode++) System.out.println(opcode + " " + line(opcode));
  }

  private static boolean isCore(int opcode) {
    int[][] ranges = {{0, 45}, {54, 78}, {87, 167}, {170, 177}, {196, 196}, {198, 200}};
    for (int[] range : ranges) if (range[0] <= opcode && opcode <= range[1]) return true;
    return false;
  }

  private static String line(int opcode) throws Throwable {
    if (!isCore(opcode)) return "255 0 0";
    if (opcode == WIDE) return "254 0 0";
    Instruction.Kind kind = Opcode.get(opcode).kind;
    int length = kind == Instruction.Kind.DYNAMIC ? 0 : kind.length;
    return length + " " + new OpcodePage(opcode, length).places();
  }

  // ---- what the verifier says

  private String places() throws Throwable {
    for (int popped = 0; popped <= MOST_POPPED; popped++)
      for (String kinds : ofPlaces(popped)) if (isTaken(kinds)) return popped + " " + pushed(kinds);
    throw new IllegalStateException("the verifier does not take opcode " + opcode);
  }

  /** All lists of kinds that take this many places. */
  private static List<String> ofPlaces(int places) {
    if (places == 0) return List.of("");
    List<String> out = new ArrayList<>();
    for (char kind : Judge.KINDS.toCharArray())
      if (size(kind) <= places) for (String rest : ofPlaces(places - size(kind))) out.add(rest + kind);
    return out;
  }

  private static int size(char kind) {
    return kind == 'J' || kind == 'D' ? 2 : 1;
  }

  /** How many places can be popped after the instruction. */
  private int pushed(String kinds) throws Throwable {
    if (isReturn()) return 0;
    int places = 0;
    List<Integer> pops = new ArrayList<>();
    while (true) {
      if (isTaken(kinds, pops, POP)) pops.add(POP);
      else if (isTaken(kinds, pops, POP2)) pops.add(POP2);
      else return places;
      places += pops.get(pops.size() - 1) - POP + 1;
    }
  }

  private boolean isTaken(String kinds, List<Integer> pops, int next) throws Throwable {
    List<Integer> all = new ArrayList<>(pops);
    all.add(next);
    return isTaken(kinds, all.stream().mapToInt(pop -> pop).toArray());
  }

  /** Whether the verifier takes the instruction after values of these kinds, and before these opcodes. */
  private boolean isTaken(String kinds, int... after) throws Throwable {
    Judge.Body body = new Judge.Body();
    if (opcode >= LDC && opcode <= LDC2_W) body.constants.add(opcode == LDC2_W ? 1L : (Object) 1);
    local(body);
    for (char kind : kinds.toCharArray()) Judge.push(body, kind, "0");
    instruction(body);
    body.op(after).op(RETURN);
    char result = isReturn() && opcode != RETURN ? Judge.KINDS.charAt(opcode - 172) : 'V';
    try {
      Judge.run(body, Judge.descriptor("", result), 12, 8);
      return true;
    } catch (VerifyError e) {
      return false;
    } catch (ArithmeticException e) {
      return true; // a division by 0 was verified, and ran
    }
  }

  private boolean isReturn() {
    return opcode >= 172 && opcode <= RETURN;
  }

  // ---- the instruction

  /** A value for the local that is loaded or incremented: 0 to 3 by the opcode, else 0. */
  private void local(Judge.Body body) {
    if (opcode == IINC) body.op(3, 59); // iconst_0, istore_0
    if (opcode < 21 || opcode > 45) return;
    int kind = opcode < 26 ? opcode - 21 : (opcode - 26) / 4;
    Judge.push(body, Judge.KINDS.charAt(kind), "0");
    body.op(54 + kind, opcode < 26 ? 0 : (opcode - 26) % 4);
  }

  /** The opcode with its operands: constant 1, and every jump to what comes next. */
  private void instruction(Judge.Body body) {
    int at = body.size();
    body.op(opcode);
    if (length == 0) {
      while (body.size() % 4 != 0) body.op(0);
      int end = body.size() + (opcode == TABLESWITCH ? 16 : 8);
      body.op(0, 0, 0, end - at, 0, 0, 0, 0); // default; low, or no pairs
      if (opcode == TABLESWITCH) body.op(0, 0, 0, 0, 0, 0, 0, end - at); // high, and an offset
    }
    boolean jumps = opcode >= 153 && opcode <= 167 || opcode >= 198;
    for (int i = 1; i < length; i++) body.op(i < length - 1 ? 0 : jumps ? length : opcode >= LDC && opcode <= LDC2_W ? 1 : 0);
  }
}
