import java.io.ByteArrayOutputStream;
import java.io.IOException;
import java.lang.reflect.InvocationTargetException;

/** What the virtual machine that runs this program says of a static method with a descriptor. Class files have version 52. */
final class Format {
  private static final String[] REASONS = {
    "illegal signature", "Illegal UTF8 string", "Too many arguments", "more than 255 dimensions", "Class name is empty or contains illegal character"
  };

  private Format() {}

  /** Why no class may have a method with this descriptor, or null where one may. */
  static String refusal(byte[] descriptor) throws IOException {
    ClassFile file = new ClassFile("T");
    file.addNative("run", descriptor);
    try {
      new HotSpot.Loader().define("T", file.bytes());
      return null;
    } catch (ClassFormatError e) {
      return reason(e);
    }
  }

  /** The error without the names in it. */
  private static String reason(ClassFormatError e) {
    for (String known : REASONS) if (e.getMessage().contains(known)) return known;
    return e.getMessage();
  }

  /** Whether its arguments have room in this many locals. */
  static boolean fits(byte[] descriptor, int stack, int locals, byte[] code) throws IOException {
    try {
      new HotSpot.Loader().define("T", method(descriptor, stack, locals, code));
      return true;
    } catch (ClassFormatError e) {
      if (e.getMessage().contains("Arguments can't fit into locals")) return false;
      throw e;
    }
  }

  private static byte[] method(byte[] descriptor, int stack, int locals, byte[] code) throws IOException {
    ClassFile file = new ClassFile("T");
    file.add("run", descriptor, stack, locals, code);
    return file.bytes();
  }

  /** How its method ends with arguments of 0. Throws a LinkageError where the verifier refuses it. */
  static String end(byte[] descriptor, Descriptor read, int stack, byte[] code) throws Exception {
    HotSpot.Loader loader = new HotSpot.Loader();
    loader.define("T", method(descriptor, stack, read.places(), code));
    Class<?> caller = loader.define("C", caller(descriptor, read));
    try {
      return HotSpot.line(Descriptor.kind(read.result()), value -> value == null ? 0 : -1, caller.getMethods()[0].invoke(null));
    } catch (InvocationTargetException e) {
      if (e.getCause() instanceof LinkageError refused) throw refused;
      throw e;
    }
  }

  /** A method that calls it, and returns what it gets as the kind that its type has on the stack. */
  private static byte[] caller(byte[] descriptor, Descriptor read) throws IOException {
    ClassFile out = new ClassFile("C");
    ByteArrayOutputStream code = new ByteArrayOutputStream();
    for (String type : read.parameters()) code.write(new int[] {3, 9, 11, 14, 1}[Operands.KINDS.indexOf(Descriptor.kind(type))]); // 0 or null
    out.operand(code, 184, out.method("T", "run", descriptor));
    char kind = Descriptor.kind(read.result());
    code.write(Descriptor.returns(kind));
    out.add("run", DescriptorMaker.bytes("()" + (kind == 'A' ? "Ljava/lang/Object;" : kind)), read.places() + 2, 0, code.toByteArray());
    return out.bytes();
  }
}
