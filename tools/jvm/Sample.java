import java.io.ByteArrayOutputStream;
import java.io.DataOutputStream;
import java.io.IOException;
import java.util.List;

/**
 * A method with its arguments.
 *
 * @param stack max_stack
 * @param locals max_locals
 * @param code the bytes
 * @param pool the constants, their indices rising
 * @param kinds the kinds of the arguments
 * @param arguments their bits; a reference is its word, 0 for null
 * @param result the kind that is returned, V for void
 * @param forms the forms of the stack instructions in it
 * @param descriptor the descriptor, or null where the sheet has none
 * @param handlers the exception table
 */
record Sample(
    int stack,
    int locals,
    byte[] code,
    List<Constant> pool,
    String kinds,
    List<Long> arguments,
    char result,
    List<String> forms,
    String descriptor,
    List<Handler> handlers) {

  /** A constant: its pool index, its kind, its bits. A class has the kind L, its name, and as its bits whether it takes an ArithmeticException. */
  record Constant(int index, char kind, long bits, String name) {
    int tag() {
      return "IFJDL".indexOf(kind) + 3;
    }

    int next() {
      return index + Frame.size(kind);
    }
  }

  /** An entry of the exception table (JVMS 4.7.3): three offsets, and the pool index of a class or 0. */
  record Handler(int start, int end, int handler, int type) {}

  int nextIndex() {
    return pool.isEmpty() ? 1 : pool.get(pool.size() - 1).next();
  }

  /** The same with another return type. */
  Sample returning(String type) {
    String other = descriptor.substring(0, descriptor.lastIndexOf(')') + 1) + type;
    return new Sample(stack, locals, code, pool, kinds, arguments, result, forms, other, handlers);
  }

  /** The same with other code and another exception table. */
  Sample with(byte[] code, List<Handler> handlers) {
    return new Sample(stack, locals, code, pool, kinds, arguments, result, forms, descriptor, handlers);
  }

  /** The constant at an index. */
  Constant at(int index) {
    return pool.stream().filter(c -> c.index == index).findAny().orElseThrow();
  }

  /** The sheet (docs/RULES.md, 'The sheet'). */
  byte[] sheet() throws IOException {
    ByteArrayOutputStream bytes = new ByteArrayOutputStream();
    DataOutputStream out = new DataOutputStream(bytes);
    record(out, "LM", 4);
    out.writeShort(stack);
    out.writeShort(locals);
    if (descriptor != null) {
      record(out, "DS", descriptor.length());
      out.writeBytes(descriptor);
    }
    record(out, "CD", code.length);
    out.write(code);
    for (Constant c : pool) {
      record(out, "KI", Frame.wide(c.kind) ? 11 : 7);
      out.writeShort(c.index);
      out.writeByte(c.tag());
      if (Frame.wide(c.kind)) out.writeLong(c.bits);
      else out.writeInt((int) c.bits);
    }
    for (Handler h : handlers) {
      record(out, "EX", 8);
      for (int n : new int[] {h.start, h.end, h.handler, h.type}) out.writeShort(n);
    }
    record(out, "AR", 4 * Frame.size(kinds));
    for (int i = 0; i < kinds.length(); i++) {
      out.writeInt((int) (long) arguments.get(i)); // the low word of a long lies first
      if (Frame.wide(kinds.charAt(i))) out.writeInt((int) (arguments.get(i) >>> 32));
    }
    return bytes.toByteArray();
  }

  static void record(DataOutputStream out, String mark, int length) throws IOException {
    out.writeBytes(mark);
    out.writeShort(length);
  }
}
