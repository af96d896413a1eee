import java.io.ByteArrayOutputStream;
import java.io.DataOutputStream;
import java.io.IOException;
import java.nio.charset.StandardCharsets;

/** A class file of version 52 under construction: a public class with static methods that have no branches, so that it needs no stack maps. */
final class ClassFile {
  private static final int VERSION = 52, PUBLIC_SUPER = 0x21, PUBLIC_STATIC = 9, NATIVE = 0x100;

  private final ByteArrayOutputStream constants = new ByteArrayOutputStream(), methods = new ByteArrayOutputStream();
  private final DataOutputStream pool = new DataOutputStream(constants), body = new DataOutputStream(methods);
  private final int name, parent, attribute;
  private int next = 1, count;

  ClassFile(String name) throws IOException {
    this.name = type(name);
    parent = type("java/lang/Object");
    attribute = text("Code");
  }

  // ---- constants: each gives its index

  private int text(byte[] bytes) throws IOException {
    pool.writeByte(1);
    pool.writeShort(bytes.length);
    pool.write(bytes);
    return next++;
  }

  private int text(String text) throws IOException {
    return text(text.getBytes(StandardCharsets.ISO_8859_1));
  }

  int type(String name) throws IOException {
    return constant(7, text(name));
  }

  int method(String owner, String name, byte[] descriptor) throws IOException {
    return constant(10, type(owner), constant(12, text(name), text(descriptor)));
  }

  private int constant(int tag, int... indices) throws IOException {
    pool.writeByte(tag);
    shorts(pool, indices);
    return next++;
  }

  // ---- methods

  /** An instruction with an index of the pool. */
  void operand(ByteArrayOutputStream code, int opcode, int index) {
    code.write(opcode);
    code.write(index >> 8);
    code.write(index);
  }

  void add(String name, byte[] descriptor, int stack, int locals, byte[] code) throws IOException {
    count++;
    shorts(body, PUBLIC_STATIC, text(name), text(descriptor), 1, attribute);
    body.writeInt(12 + code.length);
    shorts(body, stack, locals);
    body.writeInt(code.length);
    body.write(code);
    shorts(body, 0, 0); // no handlers, no attributes
  }

  /** A method without code. */
  void addNative(String name, byte[] descriptor) throws IOException {
    count++;
    shorts(body, PUBLIC_STATIC | NATIVE, text(name), text(descriptor), 0);
  }

  byte[] bytes() throws IOException {
    ByteArrayOutputStream bytes = new ByteArrayOutputStream();
    DataOutputStream out = new DataOutputStream(bytes);
    out.writeInt(0xCAFEBABE);
    out.writeInt(VERSION);
    out.writeShort(next);
    constants.writeTo(out);
    shorts(out, PUBLIC_SUPER, name, parent, 0, 0, count); // no interfaces, no fields
    methods.writeTo(out);
    shorts(out, 0); // no attributes
    return bytes.toByteArray();
  }

  private static void shorts(DataOutputStream out, int... numbers) throws IOException {
    for (int n : numbers) out.writeShort(n);
  }
}
