import java.io.ByteArrayOutputStream;
import java.io.DataOutputStream;
import java.nio.file.Files;
import java.nio.file.Path;
import java.util.ArrayList;
import java.util.Arrays;
import java.util.HashMap;
import java.util.List;
import java.util.Map;
import java.util.regex.Matcher;
import java.util.regex.Pattern;

/**
 * Asks the Java virtual machine that runs this whether the outside values of this repository are its own.
 *
 * <p>Each becomes a class file (version 49, which its verifier takes without stack maps) that is verified, run and compared: the kinds that each
 * instruction pops and pushes and its length (crates/rules/proofs/Shapes.antt); what one instruction does with values, which branches are taken
 * and how whole methods end (tools/vectors/facts.txt); each vector of arithmetic (crates/arithmetic_vectors/stdin).
 * A NaN of float arithmetic has an open payload here and a fixed one there: two NaNs count as equal where a float is computed.
 *
 * <p>Usage: java tools/jvm/Judge.java   (from the repository's root)
 */
public final class Judge {
  static final String KINDS = "IJFDA"; // int, long, float, double, reference
  static final Map<String, Character> KIND = Map.of("int", 'I', "long", 'J', "float", 'F', "double", 'D', "reference", 'A', "any", 'I');
  static final Map<Integer, String[]> shapes = new HashMap<>();
  static final Map<Integer, Integer> lengths = new HashMap<>();
  static int asked, differ;

  /** A method body under construction, and the constants that it loads. */
  static final class Body extends ByteArrayOutputStream {
    final List<Object> constants = new ArrayList<>();

    Body op(int... bytes) {
      for (int b : bytes) write(b);
      return this;
    }

    Body constant(int opcode, Object value) {
      int index = 1;
      for (Object o : constants) index += wide(o) ? 2 : 1;
      constants.add(value);
      return op(opcode, index >> 8, index & 255);
    }
  }

  static boolean wide(Object constant) {
    return constant instanceof Long || constant instanceof Double;
  }

  // ---- class files

  static Object run(Body body, String descriptor, int stack, int locals, Object... arguments) throws Throwable {
    ByteArrayOutputStream bytes = new ByteArrayOutputStream();
    DataOutputStream out = new DataOutputStream(bytes);
    int first = 1;
    for (Object o : body.constants) first += wide(o) ? 2 : 1;
    out.writeInt(0xCAFEBABE);
    out.writeInt(49);
    out.writeShort(first + 7);
    for (Object o : body.constants) constant(out, o);
    for (String name : new String[] {"T", "java/lang/Object"}) {
      out.writeByte(1);
      out.writeUTF(name);
    }
    out.writeByte(7);
    out.writeShort(first);
    out.writeByte(7);
    out.writeShort(first + 1);
    for (String name : new String[] {"run", descriptor, "Code"}) {
      out.writeByte(1);
      out.writeUTF(name);
    }
    for (int n : new int[] {9, first + 2, first + 3, 0, 0, 1, 9, first + 4, first + 5, 1, first + 6}) out.writeShort(n);
    out.writeInt(12 + body.size());
    out.writeShort(stack);
    out.writeShort(locals);
    out.writeInt(body.size());
    out.write(body.toByteArray());
    for (int n : new int[] {0, 0, 0}) out.writeShort(n);
    byte[] file = bytes.toByteArray();
    Class<?> made = new ClassLoader(null) {
      Class<?> make() {
        return defineClass("T", file, 0, file.length);
      }
    }.make();
    try {
      return made.getMethods()[0].invoke(null, arguments);
    } catch (java.lang.reflect.InvocationTargetException e) {
      throw e.getCause();
    }
  }

  static void constant(DataOutputStream out, Object o) throws Exception {
    if (o instanceof Integer i) {
      out.writeByte(3);
      out.writeInt(i);
    } else if (o instanceof Float f) {
      out.writeByte(4);
      out.writeInt(Float.floatToRawIntBits(f));
    } else if (o instanceof Long l) {
      out.writeByte(5);
      out.writeLong(l);
    } else if (o instanceof Double d) {
      out.writeByte(6);
      out.writeLong(Double.doubleToRawLongBits(d));
    }
  }

  static String descriptor(String arguments, char kind) {
    return "(" + arguments + ")" + (kind == 'A' ? "Ljava/lang/Object;" : kind);
  }

  // ---- values as bits, in hexadecimal

  static void push(Body body, char kind, String digits) {
    long bits = Long.parseUnsignedLong(digits, 16);
    switch (kind) {
      case 'I' -> body.constant(19, (int) bits);
      case 'F' -> body.constant(19, Float.intBitsToFloat((int) bits));
      case 'J' -> body.constant(20, bits);
      case 'D' -> body.constant(20, Double.longBitsToDouble(bits));
      default -> body.op(bits == 0 ? 1 : bits == 1 ? 42 : 43); // null, or one of the two objects that the method is given
    }
  }

  static String digits(Object value) {
    if (value == null) return "00000000";
    if (value instanceof Integer i) return String.format("%08X", i);
    if (value instanceof Float f) return String.format("%08X", Float.floatToRawIntBits(f));
    return String.format("%016X", value instanceof Long l ? l : Double.doubleToRawLongBits((Double) value));
  }

  /** The digits of a float or a double that was computed: those of the fixed NaN for each NaN. */
  static String computed(Object value) {
    if (value instanceof Float f && f.isNaN()) return "7FC00000";
    if (value instanceof Double d && d.isNaN()) return "7FF8000000000000";
    return digits(value);
  }

  // ---- the facts

  /** What an opcode leaves of the values on a stack that holds nothing else. */
  static String instruction(int opcode, String... values) throws Throwable {
    String takes = shapes.get(opcode)[0], gives = shapes.get(opcode)[1];
    Body body = new Body();
    for (int i = 0; i < values.length; i++) push(body, takes.charAt(i), values[i]);
    body.op(opcode);
    try {
      if (gives.length() == 1) {
        body.op(172 + KINDS.indexOf(gives.charAt(0)));
        Object value = run(body, descriptor("", gives.charAt(0)), 12, 0);
        return opcode == 118 || opcode == 119 ? digits(value) : computed(value);
      }
      for (int i = gives.length() - 1; i >= 0; i--) body.op(60, 42, 16, i, 27, 79); // istore_1, aload_0, bipush i, iload_1, iastore
      int[] after = new int[gives.length()];
      run(body.op(177), "([I)V", 12, 2, (Object) after);
      StringBuilder out = new StringBuilder();
      for (int word : after) out.append(" ").append(digits(word));
      return out.toString().strip();
    } catch (ArithmeticException e) {
      return "throw arithmetic";
    }
  }

  /** What IINC of a local leaves there, plain or with WIDE. */
  static String increment(boolean wide, String value, String constant) throws Throwable {
    int c = Integer.parseInt(constant, 16);
    Body body = new Body();
    push(body, 'I', value);
    body.op(59); // istore_0
    if (wide) body.op(196, 132, 0, 0, c >> 8, c & 255);
    else body.op(132, 0, c);
    return digits(run(body.op(26, 172), "()I", 12, 1));
  }

  /** Whether a branch is taken. */
  static boolean taken(int opcode, String... values) throws Throwable {
    Body body = new Body();
    String takes = shapes.get(opcode)[0];
    for (int i = 0; i < takes.length(); i++) push(body, takes.charAt(i), values[i]);
    body.op(opcode, 0, 5, 3, 172, 4, 172); // to the other ireturn
    return (Integer) run(body, "(Ljava/lang/Object;Ljava/lang/Object;)I", 4, 2, "one", "two") == 1;
  }

  /** How a method without arguments ends. The kind of what it returns is the one that is wanted. */
  static String method(int stack, int locals, String code, List<Object> constants, String want) throws Throwable {
    Body body = new Body();
    body.constants.addAll(constants);
    for (int i = 0; i < code.length(); i += 2) body.op(Integer.parseInt(code.substring(i, i + 2), 16));
    String name = want.startsWith("return") ? want.split(" ")[1] : "int";
    char kind = name.equals("ref") ? 'A' : name.equals("void") ? 'V' : KIND.get(name);
    try {
      Object value = run(body, descriptor("", kind), stack, locals);
      return "return " + name + (kind == 'V' ? "" : " " + digits(value));
    } catch (ArithmeticException e) {
      return "throw arithmetic";
    }
  }

  /** That the verifier takes an opcode with the kinds and the length that its shape says. */
  static void shape(int opcode) throws Throwable {
    String takes = shapes.get(opcode)[0], gives = shapes.get(opcode)[1];
    Body body = new Body();
    int length = lengths.getOrDefault(opcode, 1);
    boolean load = opcode >= 21 && opcode <= 45, store = opcode >= 54 && opcode <= 78;
    int local = load ? opcode <= 25 ? 0 : (opcode - 26) % 4 : opcode <= 58 ? 0 : (opcode - 59) % 4;
    if (load) {
      push(body, gives.charAt(0), "0");
      body.op(54 + KINDS.indexOf(gives.charAt(0)), local);
    } else if (opcode == 132) body.op(3, 59);
    for (char k : takes.toCharArray()) push(body, k, "0");
    if (opcode == 170 || opcode == 171) { // a switch: padding, then the default; low and high, or no pairs; a table of one
      int at = body.size(), end = (at / 4 + 1) * 4 + (opcode == 170 ? 16 : 8);
      body.op(opcode);
      while (body.size() % 4 != 0) body.op(0);
      body.op(0, 0, 0, end - at, 0, 0, 0, 0);
      if (opcode == 170) body.op(0, 0, 0, 0, 0, 0, 0, end - at);
    } else if (opcode == 196) body.op(196, 54 - 33, 0, 0);
    else {
      body.op(opcode);
      boolean jump = opcode >= 153 && opcode <= 167 || opcode >= 198;
      for (int i = 1; i < length; i++) body.op(jump && i == length - 1 ? length : opcode >= 18 && opcode <= 20 && i == length - 1 ? 1 : 0);
    }
    if (opcode >= 18 && opcode <= 20) body.constants.add(opcode == 20 ? 1L : (Object) 1);
    if (opcode == 196) {
      Body wide = new Body().op(3, 59, 196, 21, 0, 0, 87, 177); // iconst_0, istore_0, wide iload 0, pop, return
      run(wide, "()V", 12, 8);
      return;
    }
    if (opcode >= 172 && opcode <= 177) {
      run(body, descriptor("", takes.isEmpty() ? 'V' : takes.charAt(0)), 12, 8);
      return;
    }
    if (store) body.op(21 + KINDS.indexOf(takes.charAt(0)), local, 172 + KINDS.indexOf(takes.charAt(0)));
    else if (gives.length() == 1) body.op(172 + KINDS.indexOf(gives.charAt(0)));
    else {
      for (char k : gives.toCharArray()) body.op(54, 0);
      body.op(177);
    }
    char result = store ? takes.charAt(0) : gives.length() == 1 ? gives.charAt(0) : 'V';
    try {
      run(body, descriptor("", result), 12, 8);
    } catch (ArithmeticException e) {
      // a division by 0 was verified and ran
    }
  }

  // ---- reading the files

  static String kinds(String text) {
    StringBuilder out = new StringBuilder();
    for (String word : text.split("[^a-z]+")) if (KIND.containsKey(word)) out.append(KIND.get(word));
    return out.toString();
  }

  static void readShapes(String text) {
    Matcher s = Pattern.compile("(?m)^\\s+shape (\\[\\]|\\([^()]*\\)) (\\[\\]|\\([^()]*\\)) \\((.*)\\) ∷$").matcher(text);
    while (s.find()) for (int op : opcodes(s.group(3))) shapes.put(op, new String[] {kinds(s.group(1)), kinds(s.group(2))});
    Matcher l = Pattern.compile("(?m)^\\s+bytes (\\d+) \\((.*)\\) ∷$").matcher(text);
    while (l.find()) for (int op : opcodes(l.group(2))) lengths.put(op, Integer.parseInt(l.group(1)));
  }

  static List<Integer> opcodes(String text) {
    List<Integer> out = new ArrayList<>();
    Matcher m = Pattern.compile("(\\d+) to (\\d+)").matcher(text);
    while (m.find()) for (int op = Integer.parseInt(m.group(1)); op <= Integer.parseInt(m.group(2)); op++) out.add(op);
    return out;
  }

  static List<Object> constants(String[] given) {
    List<Object> out = new ArrayList<>();
    for (int i = 0; i < given.length; i += 2) {
      long bits = Long.parseUnsignedLong(given[i + 1], 16);
      out.add(switch (given[i]) {
        case "int" -> (Object) (int) bits;
        case "float" -> Float.intBitsToFloat((int) bits);
        case "long" -> bits;
        default -> Double.longBitsToDouble(bits);
      });
    }
    return out;
  }

  /** Which of the branches with these opcodes are taken. */
  static String branches(int[] opcodes, String[] names, String... values) throws Throwable {
    StringBuilder out = new StringBuilder();
    for (int i = 0; i < names.length; i++) {
      if (taken(opcodes[i], values)) out.append(" ").append(names[i]);
    }
    asked += names.length - 1;
    return out.toString().strip();
  }

  static final String[] ONE = {"ifeq", "ifne", "iflt", "ifge", "ifgt", "ifle"}, TWO = {"if_icmpeq", "if_icmpne", "if_icmplt", "if_icmpge", "if_icmpgt", "if_icmple"};
  static final String[] REFERENCES = {"ifnull", "ifnonnull", "if_acmpeq", "if_acmpne"};

  static void tell(String fact, String want, String got) {
    asked++;
    if (want.equals(got)) return;
    differ++;
    System.out.println(fact + " = " + want + ", and the JVM has " + got);
  }

  /** A line of facts.txt, with the constants of its method. */
  static String fact(String[] words, List<Object> pool, String want) throws Throwable {
    String[] values = Arrays.copyOfRange(words, 1, words.length);
    return switch (words[0]) {
      case "tests" -> branches(new int[] {153, 154, 155, 156, 157, 158}, ONE, values);
      case "tests_of_two" -> branches(new int[] {159, 160, 161, 162, 163, 164}, TWO, values);
      case "tests_of_refs" -> branches(new int[] {198, 199, 165, 166}, REFERENCES, values);
      case "method" -> method(Integer.parseInt(words[2]), Integer.parseInt(words[3]), words[4], pool, want);
      default -> instruction(Integer.parseInt(words[0], 16), Arrays.copyOfRange(words, 2, words.length));
    };
  }

  /** A vector of arithmetic: what its function gives. */
  static String vector(int opcode, String... values) throws Throwable {
    if (opcode == 132 || opcode == 196) return increment(opcode == 196, values[0], values[1]);
    if (opcode >= 159 && opcode <= 164) return taken(opcode, values) ? "1" : "0";
    return instruction(opcode, values);
  }

  interface Question {
    String answer() throws Throwable;
  }

  static void ask(String fact, String want, Question question) throws Throwable {
    try {
      tell(fact, want, question.answer());
    } catch (VerifyError | ClassFormatError e) {
      tell(fact, want, e.getMessage().split("\n")[0]);
    }
  }

  public static void main(String[] none) throws Throwable {
    readShapes(Files.readString(Path.of("crates/rules/proofs/Shapes.antt")));
    for (int op : shapes.keySet()) {
      ask("shape of " + op, "verified", () -> {
        shape(op);
        return "verified";
      });
    }
    List<Object> pool = List.of();
    for (String line : Files.readAllLines(Path.of("tools/vectors/facts.txt"))) {
      if (line.isBlank() || line.startsWith("#")) continue;
      String[] sides = (line + " ").split("="), words = sides[0].strip().split(" +");
      if (words[0].equals("constants")) {
        pool = constants(Arrays.copyOfRange(words, 1, words.length));
        continue;
      }
      List<Object> constants = pool;
      String want = sides[1].strip();
      ask(sides[0].strip(), want, () -> fact(words, constants, want));
    }
    for (String line : Files.readAllLines(Path.of("crates/arithmetic_vectors/stdin"))) {
      String[] words = line.split(" +");
      String[] values = Arrays.copyOfRange(words, 2, words.length - 1);
      ask(line, words[words.length - 1], () -> vector(Integer.parseInt(words[0], 16), values));
    }
    System.out.println(asked + " judged, " + differ + " differ");
    if (differ > 0) System.exit(1);
  }
}
