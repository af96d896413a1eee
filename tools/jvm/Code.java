import java.util.ArrayList;
import java.util.Arrays;
import java.util.List;

/** Code under construction: its bytes, its labels, and what the verifier knows at the place that is written next. */
final class Code {
  /** A place to jump to. Known from its first jump, or from its own place, on. */
  static final class Label {
    int at = -1;
    Frame frame;
    private final List<int[]> sites = new ArrayList<>(); // place of a distance, the jump's opcode, bytes
  }

  /** Where an instruction begins, and the locals that are known there; null where it is never reached. */
  record Start(int at, char[] locals) {}

  Frame frame;
  List<Start> starts; // null where nobody asks
  boolean reachable = true;
  int size, maxStack, maxLocals;
  int cost; // steps at most, as far as written
  private byte[] bytes = new byte[64];

  Code(int locals) {
    frame = new Frame(locals);
  }

  byte[] bytes() {
    return Arrays.copyOf(bytes, size);
  }

  /** An instruction that goes on to the next one. */
  void emit(String pops, String pushes, int... instruction) {
    begin();
    frame.pop(pops);
    frame.push(pushes);
    maxStack = Math.max(maxStack, Frame.size(frame.stack));
    raw(instruction);
    cost++;
  }

  /** The next instruction begins here. */
  void begin() {
    if (starts != null) starts.add(new Start(size, reachable ? frame.locals.clone() : null));
  }

  void raw(int... instruction) {
    for (int b : instruction) {
      if (size == bytes.length) bytes = Arrays.copyOf(bytes, 2 * size);
      bytes[size++] = (byte) b;
    }
  }

  void word(int word) {
    raw(word >> 24, word >> 16, word >> 8, word);
  }

  int opcode(int at) {
    return bytes[at] & 255;
  }

  /** Writes over the byte at a place. */
  void put(int at, int value) {
    bytes[at] = (byte) value;
  }

  void touch(int local, char kind) {
    maxLocals = Math.max(maxLocals, local + Frame.size(kind));
  }

  /** A jump whose operands are already taken off the frame. GOTO_W has a distance of four bytes. */
  void jump(int opcode, Label to) {
    int from = size;
    begin();
    raw(opcode);
    distance(from, to, opcode == 200 ? 4 : 2);
    cost++;
    if (opcode == 167 || opcode == 200) reachable = false;
  }

  /** A switch whose index is already taken off the frame: the fields after the default, then the targets, after their keys in a LOOKUPSWITCH. */
  void choose(int opcode, Label otherwise, int[] fields, int[] keys, List<Label> targets) {
    int from = size;
    begin();
    raw(opcode);
    while (size % 4 != 0) raw(0);
    distance(from, otherwise, 4);
    for (int field : fields) word(field);
    for (int i = 0; i < targets.size(); i++) {
      if (opcode == 171) word(keys[i]);
      distance(from, targets.get(i), 4);
    }
    cost++;
    reachable = false;
  }

  private void distance(int from, Label to, int length) {
    if (to.at >= 0 && !frame.suits(to.frame)) throw new IllegalStateException("a jump back changes " + to.frame + " to " + frame);
    if (to.at < 0 && to.frame == null) to.frame = frame.copy();
    else if (to.at < 0) to.frame.meet(frame);
    int[] site = {size, from, length};
    for (int i = 0; i < length; i++) raw(0);
    if (to.at >= 0) fill(site, to.at);
    else to.sites.add(site);
  }

  private void fill(int[] site, int to) {
    int distance = to - site[1];
    for (int i = 0; i < site[2]; i++) bytes[site[0] + i] = (byte) (distance >> 8 * (site[2] - 1 - i));
  }

  /** The label stands here. */
  void bind(Label label) {
    if (!reachable) frame = label.frame.copy();
    else if (label.frame != null) frame.meet(label.frame);
    label.frame = frame.copy();
    label.at = size;
    for (int[] site : label.sites) fill(site, size);
    reachable = true;
  }
}
