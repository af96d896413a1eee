import java.io.BufferedOutputStream;
import java.io.ByteArrayOutputStream;
import java.io.DataOutputStream;
import java.io.IOException;
import java.io.PrintWriter;
import java.nio.file.Files;
import java.nio.file.Path;
import java.util.Map;
import java.util.TreeMap;

/**
 * Sheets with good and bad descriptors, and what is owed for each, by a parser of its own (Descriptor) and by the Java virtual machine that runs this.
 *
 * <p>First a fixed list, then each return type with each return opcode, then COUNT at random, some of these with the wrong number of argument words. CASES
 * and ENDS are as of tools/jvm/methods. It fails where the parser and the virtual machine do not agree whether a descriptor is good, how many places
 * its parameters take, or which opcode its method returns with.
 *
 * <p>Usage: tools/jvm/descriptors SEED COUNT CASES ENDS
 */
public final class Descriptors {
  private static final int STACK = 2, LOCALS = 255;
  private static final String KINDS = "IJFDAV";
  private static final byte[][] CODES = { // 98433 as 9 times 10937, which each narrow type changes in its own way; 1 of each kind; null; nothing
    {16, 9, 17, 42, -71, 104, (byte) 172}, {10, (byte) 173}, {12, (byte) 174}, {15, (byte) 175}, {1, (byte) 176}, {(byte) 177}
  };

  private final DataOutputStream cases;
  private final PrintWriter ends;
  private final Map<String, Integer> tallies = new TreeMap<>();
  private int disagreements;

  private Descriptors(DataOutputStream cases, PrintWriter ends) {
    this.cases = cases;
    this.ends = ends;
  }

  public static void main(String[] words) throws Exception {
    if (words.length != 4) {
      System.err.println("usage: tools/jvm/descriptors SEED COUNT CASES ENDS");
      System.exit(2);
    }
    try (DataOutputStream cases = new DataOutputStream(new BufferedOutputStream(Files.newOutputStream(Path.of(words[2]))));
        PrintWriter ends = new PrintWriter(Files.newBufferedWriter(Path.of(words[3])))) {
      Descriptors all = new Descriptors(cases, ends);
      all.write(Long.parseLong(words[0]), Integer.parseInt(words[1]));
      all.tallies.forEach((what, n) -> System.out.println(what + ": " + n));
      System.out.println("parser and virtual machine do not agree: " + all.disagreements);
      if (all.disagreements > 0) System.exit(1);
    }
  }

  private void write(long seed, int count) throws Exception {
    for (String text : DescriptorMaker.fixed()) descriptor(DescriptorMaker.bytes(text));
    for (String type : new String[] {"Z", "B", "C", "S", "I", "J", "F", "D", "V", "La;", "[I"}) {
      for (char kind : KINDS.toCharArray()) opcode(type, kind);
    }
    for (int i = 0; i < count; i++) {
      Dice dice = Dice.of(seed, i);
      DescriptorMaker maker = new DescriptorMaker(dice);
      if (dice.chance(10)) wordCount(DescriptorMaker.bytes(maker.good()), dice);
      else descriptor(DescriptorMaker.bytes(maker.some()));
    }
  }

  // ---- what is owed

  /** With as many argument words as it takes, or none where it is bad. */
  private void descriptor(byte[] bytes) throws Exception {
    Descriptor read = Descriptor.of(bytes);
    String refusal = Format.refusal(bytes);
    String told = "is " + (read == null ? "bad" : "good") + " to the parser; the virtual machine says: " + refusal;
    if (!check((read == null) == (refusal != null), bytes, told)) return;
    tally(read == null ? "bad, the virtual machine says: " + refusal : "good, returns " + read.result().charAt(0));
    if (read == null) {
      put(sheet(LOCALS, bytes, CODES[0], 0), "sheet 31");
      return;
    }
    places(read, bytes);
    char kind = Descriptor.kind(read.result());
    put(sheet(LOCALS, bytes, code(kind), read.places()), Format.end(bytes, read, STACK, code(kind)));
  }

  /** The locals that hold the arguments and no fewer are enough for the virtual machine. */
  private void places(Descriptor read, byte[] bytes) throws IOException {
    byte[] code = code(Descriptor.kind(read.result()));
    boolean enough = Format.fits(bytes, STACK, read.places(), code);
    boolean fewer = read.places() > 0 && Format.fits(bytes, STACK, read.places() - 1, code);
    check(enough && !fewer, bytes, "takes " + read.places() + " places to the parser, and not to the virtual machine");
  }

  /** Another number of words than it takes, or fewer locals than words. */
  private void wordCount(byte[] bytes, Dice dice) throws IOException {
    Descriptor read = Descriptor.of(bytes);
    if (!check(read != null && Format.refusal(bytes) == null, bytes, "is bad")) return;
    places(read, bytes);
    int takes = read.places(), words = Math.max(0, takes + dice.pick(-2, -1, 0, 1, 1, 1, 2, -takes));
    int locals = dice.pick(LOCALS, LOCALS, takes, words, Math.max(0, words - 1));
    if (words == takes) locals = words - 1;
    if (locals < 0) return; // nothing wrong with it
    tally("words " + (words > locals ? "above max_locals" : words < takes ? "fewer than places" : "more than places"));
    put(sheet(locals, bytes, code(Descriptor.kind(read.result())), words), words > locals ? "sheet 27" : "sheet 31");
  }

  /** A method of this type that returns a value of this kind. */
  private void opcode(String type, char kind) throws Exception {
    byte[] bytes = DescriptorMaker.bytes("()" + type);
    String end;
    try {
      end = Format.end(bytes, Descriptor.of(bytes), STACK, code(kind));
    } catch (VerifyError e) {
      if (!e.getMessage().matches("(?s).*T\\.run\\S* @\\d+: [adfil]?return\\n.*")) throw e; // the opcode itself, not its caller
      end = "refused 32";
    }
    check(end.equals("refused 32") == (Descriptor.kind(type) != kind), bytes, "returns with another opcode on the virtual machine");
    tally(end.equals("refused 32") ? "return opcode of another kind" : "return opcode of its kind");
    put(sheet(0, bytes, code(kind), 0), end);
  }

  private static byte[] code(char kind) {
    return CODES[KINDS.indexOf(kind)];
  }

  // ---- what is told and written

  /** Tells of it where it is not good. */
  private boolean check(boolean good, byte[] bytes, String otherwise) {
    if (good) return true;
    disagreements++;
    StringBuilder text = new StringBuilder();
    for (byte b : bytes) text.append(b > 32 && b < 127 ? "" + (char) b : String.format("\\%02X", b & 255));
    System.out.println(text + " " + otherwise);
    return false;
  }

  private void tally(String what) {
    tallies.merge(what, 1, Integer::sum);
  }

  private void put(byte[] sheet, String end) throws IOException {
    cases.writeInt(sheet.length);
    cases.write(sheet);
    ends.print(end + "\n");
  }

  /** A sheet with this descriptor and argument words of 0. */
  private static byte[] sheet(int locals, byte[] descriptor, byte[] code, int words) throws IOException {
    ByteArrayOutputStream bytes = new ByteArrayOutputStream();
    DataOutputStream out = new DataOutputStream(bytes);
    Sample.record(out, "LM", 4);
    out.writeShort(STACK);
    out.writeShort(locals);
    Sample.record(out, "DS", descriptor.length);
    out.write(descriptor);
    Sample.record(out, "CD", code.length);
    out.write(code);
    Sample.record(out, "AR", 4 * words);
    out.write(new byte[4 * words]);
    return bytes.toByteArray();
  }
}
