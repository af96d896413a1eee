import java.util.Arrays;

/**
 * What the verifier knows at an offset: the kinds of the values on the stack and of the locals.
 *
 * <p>Kinds are I int, F float, A reference, J long, D double. A long in locals is J and then j, a double D and then d; 0 is a local that may not be
 * read.
 */
final class Frame {
  String stack = "";
  char[] locals;

  Frame(int locals) {
    this.locals = new char[locals];
  }

  Frame copy() {
    Frame out = new Frame(0);
    out.stack = stack;
    out.locals = locals.clone();
    return out;
  }

  static boolean wide(char kind) {
    return kind == 'J' || kind == 'D';
  }

  static int size(char kind) {
    return wide(kind) ? 2 : 1;
  }

  static int size(String kinds) {
    int n = 0;
    for (char k : kinds.toCharArray()) n += size(k);
    return n;
  }

  /** The kinds of the values in the top places, or null where a long lies across the border. */
  String top(int places) {
    int from = stack.length(), n = 0;
    while (from > 0 && n < places) n += size(stack.charAt(--from));
    return n == places ? stack.substring(from) : null;
  }

  void pop(String kinds) {
    if (!stack.endsWith(kinds)) throw new IllegalStateException(kinds + " popped from " + stack);
    stack = stack.substring(0, stack.length() - kinds.length());
  }

  void push(String kinds) {
    stack += kinds;
  }

  void store(int at, char kind) {
    forget(at);
    locals[at] = kind;
    if (!wide(kind)) return;
    forget(at + 1);
    locals[at + 1] = Character.toLowerCase(kind);
  }

  /** Half a long is no value. */
  private void forget(int at) {
    if (wide(locals[at])) locals[at + 1] = 0;
    if (locals[at] == 'j' || locals[at] == 'd') locals[at - 1] = 0;
    locals[at] = 0;
  }

  /** What is known where two ways meet. */
  void meet(Frame other) {
    if (!stack.equals(other.stack)) throw new IllegalStateException(stack + " meets " + other.stack);
    for (int i = 0; i < locals.length; i++) if (locals[i] != other.locals[i]) locals[i] = 0;
  }

  /** Whether a jump back to where `before` was known changes nothing there. */
  boolean suits(Frame before) {
    for (int i = 0; i < locals.length; i++) if (before.locals[i] != 0 && before.locals[i] != locals[i]) return false;
    return stack.equals(before.stack);
  }

  @Override
  public String toString() {
    return stack + " " + Arrays.toString(locals);
  }
}
