import java.io.ByteArrayOutputStream;
import java.io.DataOutputStream;
import java.io.IOException;
import java.lang.reflect.Array;
import java.lang.reflect.InvocationTargetException;
import java.nio.charset.StandardCharsets;
import java.util.ArrayList;
import java.util.List;
import java.util.function.ToIntFunction;

/**
 * Runs a sample on the virtual machine that runs this program.
 *
 * <p>The class file has version 49, so the old verifier infers all kinds and needs no stack maps. Its pool has the sample's constants at the sample's
 * own indices, so that the same code bytes serve both; the gaps are filled and its own names follow.
 *
 * <p>A method with a descriptor of its own is called by the method of another class, whose int, long, float, double or reference is handed on as it
 * came: what is seen is what the method itself gave back.
 */
final class HotSpot {
  private HotSpot() {}

  /** Knows the classes that it defines, those of Java, and an empty one by any other name: the verifier asks for it where two references meet. */
  static final class Loader extends ClassLoader {
    Loader() {
      super(null);
    }

    @Override
    protected Class<?> findClass(String name) {
      try {
        return define(name, new ClassFile(name.replace('.', '/')).bytes());
      } catch (IOException e) {
        throw new IllegalStateException(e);
      }
    }

    Class<?> define(String name, byte[] file) {
      return defineClass(name, file, 0, file.length);
    }
  }

  /** The last line owed. Throws a LinkageError where the verifier refuses the method. */
  static String end(Sample sample) throws Exception {
    Object[] arguments = arguments(sample);
    try {
      return line(sample.result(), value -> word(sample, arguments, value), run(sample, arguments));
    } catch (ArithmeticException e) {
      return "throw arithmetic";
    }
  }

  /** What the method returns or throws. */
  private static Object run(Sample sample, Object[] arguments) throws Exception {
    Loader loader = new Loader();
    Class<?> made = loader.define("T", file(sample));
    if (sample.descriptor() != null) made = loader.define("C", caller(sample));
    try {
      return made.getMethods()[0].invoke(null, arguments);
    } catch (InvocationTargetException e) {
      if (e.getCause() instanceof LinkageError refused) throw refused;
      if (e.getCause() instanceof RuntimeException thrown) throw thrown;
      throw e;
    }
  }

  /**
   * The number of the entry that takes the first exception that a method throws, -1 where none does. Each entry gets a handler of its own after the
   * method's code, with the entry's number in another exception.
   */
  static int taker(Sample sample) throws Exception {
    ByteArrayOutputStream code = new ByteArrayOutputStream();
    code.writeBytes(sample.code());
    List<Sample.Handler> handlers = new ArrayList<>();
    for (Sample.Handler h : sample.handlers()) {
      int size = ~handlers.size();
      handlers.add(new Sample.Handler(h.start(), h.end(), code.size(), h.type()));
      code.writeBytes(new byte[] {87, 17, (byte) (size >> 8), (byte) size, (byte) 188, 10, 87, 1, (byte) 191}); // POP, SIPUSH, NEWARRAY, POP, null, ATHROW
    }
    try {
      run(sample.with(code.toByteArray(), handlers), arguments(sample));
    } catch (ArithmeticException e) {
      return -1;
    } catch (NegativeArraySizeException e) {
      return ~Integer.parseInt(e.getMessage());
    }
    throw new IllegalStateException("nothing is thrown");
  }

  /** Whether methods are verified at all. The wrong ones do no harm where they are not: a local is read that nothing has set, then half a long. */
  static boolean verifies() throws Exception {
    return refuses(26, 172) && refuses(9, 63, 26, 172) && !refuses(3, 172);
  }

  private static boolean refuses(int... instructions) throws Exception {
    byte[] code = new byte[instructions.length];
    for (int i = 0; i < code.length; i++) code[i] = (byte) instructions[i];
    try {
      end(new Sample(2, 2, code, List.of(), "", List.of(), 'I', List.of(), null, List.of()));
      return false;
    } catch (VerifyError e) {
      return true;
    }
  }

  /** The line for a value of a kind, with the words of references. */
  static String line(char kind, ToIntFunction<Object> word, Object value) {
    return switch (kind) {
      case 'I' -> String.format("return int %08X", (Integer) value);
      case 'J' -> String.format("return long %016X", (Long) value);
      case 'F' -> ((Float) value).isNaN() ? "return float nan" : String.format("return float %08X", Float.floatToRawIntBits((Float) value));
      case 'D' -> ((Double) value).isNaN() ? "return double nan" : String.format("return double %016X", Double.doubleToRawLongBits((Double) value));
      case 'A' -> String.format("return ref %08X", word.applyAsInt(value));
      default -> "return void";
    };
  }

  /** Whether an ArithmeticException can be assigned to a class. */
  static boolean takes(String name) {
    try {
      return Class.forName(name.replace('/', '.')).isAssignableFrom(ArithmeticException.class);
    } catch (ClassNotFoundException e) {
      throw new IllegalStateException(e);
    }
  }

  // ---- arguments: each word of a reference but 0 stands for an object of its own

  private static Object[] arguments(Sample sample) {
    Object[] out = new Object[sample.kinds().length()];
    for (int i = 0; i < out.length; i++) {
      long bits = sample.arguments().get(i);
      out[i] = switch (sample.kinds().charAt(i)) {
        case 'I' -> (Object) (int) bits;
        case 'J' -> (Object) bits;
        case 'F' -> (Object) Float.intBitsToFloat((int) bits);
        case 'D' -> (Object) Double.longBitsToDouble(bits);
        default -> object(sample, out, i);
      };
    }
    return out;
  }

  private static Object object(Sample sample, Object[] before, int at) {
    List<String> types = types(sample);
    long word = sample.arguments().get(at);
    for (int i = 0; i < at; i++) if (types.get(i).equals(types.get(at)) && sample.arguments().get(i) == word) return before[i];
    return word == 0 ? null : object(types.get(at));
  }

  /** The types of the parameters. */
  private static List<String> types(Sample sample) {
    return Descriptor.of((sample.descriptor() != null ? sample.descriptor() : plain(sample)).getBytes(StandardCharsets.ISO_8859_1)).parameters();
  }

  /** Whether there are objects of this type, or only null. */
  static boolean known(String type) {
    return type.substring(type.lastIndexOf('[') + 1).matches("[BCDFIJSZ]|Ljava/lang/(Object|String);");
  }

  private static Object object(String type) {
    try {
      if (type.startsWith("[")) return Array.newInstance(Class.forName(type.replace('/', '.')).getComponentType(), 0);
      return type.equals("Ljava/lang/String;") ? new String("text") : new Object();
    } catch (ClassNotFoundException e) {
      throw new IllegalStateException(e);
    }
  }

  private static int word(Sample sample, Object[] arguments, Object value) {
    if (value == null) return 0;
    if (value instanceof ArithmeticException) return 1; // one that was caught
    for (int i = 0; i < arguments.length; i++) if (arguments[i] == value) return (int) (long) sample.arguments().get(i);
    throw new IllegalStateException("an object from nowhere");
  }

  // ---- the class files

  /** A method with a plain descriptor that hands its arguments on to the sample's, and returns what it gets. */
  private static byte[] caller(Sample sample) throws IOException {
    ClassFile out = new ClassFile("C");
    ByteArrayOutputStream code = new ByteArrayOutputStream();
    List<String> types = types(sample);
    int at = 0;
    for (String type : types) {
      char kind = Descriptor.kind(type);
      code.write(21 + Operands.KINDS.indexOf(kind));
      code.write(at);
      at += Frame.size(kind);
      if (kind == 'A') out.operand(code, 192, out.type(type.startsWith("[") ? type : type.substring(1, type.length() - 1)));
    }
    out.operand(code, 184, out.method("T", "run", sample.descriptor().getBytes(StandardCharsets.ISO_8859_1)));
    code.write(Descriptor.returns(sample.result()));
    out.add("run", plain(sample).getBytes(StandardCharsets.ISO_8859_1), Math.max(at, 2), at, code.toByteArray());
    return out.bytes();
  }

  private static byte[] file(Sample sample) throws IOException {
    ByteArrayOutputStream bytes = new ByteArrayOutputStream();
    DataOutputStream out = new DataOutputStream(bytes);
    int first = sample.nextIndex();
    List<String> classes = sample.pool().stream().filter(c -> c.name() != null).map(Sample.Constant::name).toList();
    out.writeInt(0xCAFEBABE);
    out.writeInt(49);
    out.writeShort(first + 7 + classes.size());
    constants(out, sample, first + 7);
    text(out, "T");
    text(out, "java/lang/Object");
    for (int name : new int[] {first, first + 1}) {
      out.writeByte(7); // a class
      out.writeShort(name);
    }
    for (String name : new String[] {"run", sample.descriptor() != null ? sample.descriptor() : plain(sample), "Code"}) text(out, name);
    for (String name : classes) text(out, name);
    // public and super, this class, Object, no interfaces, no fields, one method: public and static, its name and descriptor, one attribute
    shorts(out, 0x21, first + 2, first + 3, 0, 0, 1, 9, first + 4, first + 5, 1, first + 6);
    out.writeInt(12 + sample.code().length + 8 * sample.handlers().size());
    shorts(out, sample.stack(), sample.locals());
    out.writeInt(sample.code().length);
    out.write(sample.code());
    shorts(out, sample.handlers().size());
    for (Sample.Handler h : sample.handlers()) shorts(out, h.start(), h.end(), h.handler(), h.type());
    shorts(out, 0, 0); // no attributes of the code, none of the class
    return bytes.toByteArray();
  }

  /** The constants; the names of classes stand from an index on. */
  private static void constants(DataOutputStream out, Sample sample, int names) throws IOException {
    int at = 1, name = names;
    for (Sample.Constant c : sample.pool()) {
      for (; at < c.index(); at++) text(out, "");
      out.writeByte(c.tag());
      if (c.name() != null) out.writeShort(name++);
      else if (Frame.wide(c.kind())) out.writeLong(c.bits());
      else out.writeInt((int) c.bits());
      at = c.next();
    }
  }

  private static String plain(Sample sample) {
    return plain(sample.kinds(), sample.result());
  }

  /** The descriptor of what the instructions know, every reference an Object. */
  static String plain(String kinds, char result) {
    return ("(" + kinds + ")" + result).replace("A", "Ljava/lang/Object;");
  }

  private static void text(DataOutputStream out, String text) throws IOException {
    out.writeByte(1);
    out.writeUTF(text);
  }

  private static void shorts(DataOutputStream out, int... numbers) throws IOException {
    for (int n : numbers) out.writeShort(n);
  }
}
