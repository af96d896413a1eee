import java.nio.charset.StandardCharsets;
import java.util.ArrayList;
import java.util.List;

/**
 * A method descriptor of JVMS 4.3.3, as its bytes say it. In the texts of the types each char stands for one byte.
 *
 * @param parameters the types of the parameters
 * @param result the type that is returned, V for void
 */
record Descriptor(List<String> parameters, String result) {
  private static final int DIMENSIONS = 255, PLACES = 255; // at most

  /** What the bytes say, or null where they are no descriptor of a static method. */
  static Descriptor of(byte[] bytes) {
    if (!modifiedUtf8(bytes)) return null;
    String text = new String(bytes, StandardCharsets.ISO_8859_1);
    if (!text.startsWith("(")) return null;
    List<String> parameters = new ArrayList<>();
    int at = 1;
    while (at < text.length() && text.charAt(at) != ')') {
      int next = fieldType(text, at);
      if (next < 0) return null;
      parameters.add(text.substring(at, next));
      at = next;
    }
    String result = at < text.length() ? text.substring(at + 1) : "";
    if (!result.equals("V") && fieldType(result, 0) != result.length()) return null;
    Descriptor out = new Descriptor(parameters, result);
    return out.places() <= PLACES ? out : null;
  }

  /** The places of the parameters together (4.3.3). */
  int places() {
    int n = 0;
    for (String type : parameters) n += Frame.size(kind(type));
    return n;
  }

  /** The kind that a type has on the stack: I, J, F, D, A, or V for void. */
  static char kind(String type) {
    return switch (type.charAt(0)) {
      case 'B', 'C', 'I', 'S', 'Z' -> 'I';
      case 'L', '[' -> 'A';
      default -> type.charAt(0);
    };
  }

  /** The opcode that returns a value of a kind. */
  static int returns(char kind) {
    return kind == 'V' ? 177 : 172 + Operands.KINDS.indexOf(kind);
  }

  // ---- field types (4.3.2)

  /** Where the field type that begins there ends, or -1. */
  private static int fieldType(String text, int from) {
    int at = from;
    while (at < text.length() && text.charAt(at) == '[') at++;
    if (at - from > DIMENSIONS || at == text.length()) return -1;
    if ("BCDFIJSZ".indexOf(text.charAt(at)) >= 0) return at + 1;
    int end = text.indexOf(';', at);
    return text.charAt(at) == 'L' && end >= 0 && className(text.substring(at + 1, end)) ? end + 1 : -1;
  }

  /** Unqualified names (4.2.2) with slashes between them (4.2.1). */
  private static boolean className(String name) {
    for (String part : name.split("/", -1)) if (part.isEmpty() || part.indexOf('.') >= 0 || part.indexOf('[') >= 0) return false;
    return true;
  }

  // ---- modified UTF-8 (4.4.7): each code unit in its shortest form, but 0 in two bytes

  private static boolean modifiedUtf8(byte[] bytes) {
    int at = 0;
    while (at < bytes.length) {
      int first = bytes[at] & 255, more = first < 0x80 ? 0 : first < 0xE0 ? 1 : 2;
      if (first == 0 || first >= 0x80 && first < 0xC0 || first >= 0xF0 || at + more >= bytes.length) return false;
      int unit = more == 0 ? first : more == 1 ? first & 0x1F : first & 0x0F;
      for (int i = 1; i <= more; i++) {
        int next = bytes[at + i] & 255;
        if (next >> 6 != 2) return false;
        unit = unit << 6 | next & 0x3F;
      }
      if (more == 1 && unit != 0 && unit < 0x80 || more == 2 && unit < 0x800) return false;
      at += more + 1;
    }
    return true;
  }
}
