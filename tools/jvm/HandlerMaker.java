import java.util.ArrayList;
import java.util.List;

/**
 * Makes a method with an exception table, whose divisors are often 0.
 *
 * <p>A method ends because each handler is of one of three sorts: it stands after all that it covers; or it returns without another division, and
 * covers anything; or it stands before what it covers, and counts its turns as a loop does.
 *
 * <p>An exception that was caught is the word 1 in docs/RULES.md. So no argument has this word, and no two references are compared of which both may
 * be exceptions.
 */
final class HandlerMaker extends Maker {
  static final String[] CLASSES = {
    "java/lang/ArithmeticException", "java/lang/RuntimeException", "java/lang/Exception", "java/lang/Throwable",
    "java/lang/NullPointerException", "java/io/IOException", "java/lang/Error", "java/lang/ArrayStoreException"
  };
  private static final int LONGEST = 100, ENTRIES = 7; // bytes of code and entries, so that the list stays small

  private final ExceptionTable table = new ExceptionTable(dice, code, this::type);
  private int floor = -1; // the first instruction of the loop, or of the method without its beginning

  private HandlerMaker(Dice dice, int span) {
    super(dice, span);
    code.starts = new ArrayList<>();
    zeros = 300;
  }

  static Sample make(Dice dice) {
    while (true) {
      HandlerMaker maker = new HandlerMaker(dice, dice.chance(92) ? dice.from(3, 12) : dice.from(12, 300));
      Sample sample = maker.method();
      if (maker.fits(sample)) return sample;
    }
  }

  @Override
  boolean fits(Sample sample) {
    int entries = sample.handlers().size();
    return super.fits(sample) && sample.code().length < LONGEST && entries > 0 && entries <= ENTRIES;
  }

  @Override
  char result() {
    return dice.pick("IIIIIIIJJJJFFDDAAV");
  }

  @Override
  String descriptor() {
    return dice.chance(20) ? HotSpot.plain(kinds.toString(), result) : null;
  }

  @Override
  int items() {
    return dice.from(1, 6);
  }

  @Override
  int followed() {
    return 95;
  }

  @Override
  int reference() {
    return dice.pick(0, 0, 2, 3, 0x80000000, -1);
  }

  // ---- instructions

  /** Each method has a handler that may be needed. */
  @Override
  void block(int items) {
    boolean whole = floor < 0;
    if (whole) floor = code.starts.size();
    super.block(items);
    if (whole && (table.entries.isEmpty() || dice.chance(40))) attempt(dice.from(1, 3));
  }

  @Override
  void step() {
    if (dice.chance(15)) divide(dice.pick(108, 112));
    else super.step();
  }

  @Override
  void zero(char kind) {
    if (dice.chance(75)) exactly(kind, 0);
    else {
      push(kind);
      copy();
      code.emit("" + kind + kind, "" + kind, kind == 'I' ? 100 : 101); // ISUB, LSUB
    }
  }

  /** A reference and the same one, or null. */
  @Override
  void references() {
    need("A");
    if (dice.chance(50)) copy();
    else code.emit("", "A", 1);
  }

  @Override
  int control(int left) {
    if (dice.chance(35)) return super.control(left);
    int inside = dice.from(1, Math.max(1, Math.min(left, 5)));
    if (dice.chance(75) || !retry(inside)) attempt(inside);
    return inside;
  }

  @Override
  void inside(int items, Loop loop) {
    int outer = floor;
    floor = code.starts.size();
    super.inside(items, loop);
    floor = outer;
  }

  // ---- the three sorts of handlers

  /** Instructions that may throw, and handlers after them, which go on or return. */
  private void attempt(int items) {
    int first = code.starts.size();
    block(items);
    if (dice.chance(85)) divide(dice.pick(108, 112));
    Code.Label after = new Code.Label();
    if (dice.chance(15)) end();
    else code.jump(dice.pick(167, 167, 200), after);
    for (int more = dice.weighted(65, 27, 8); more >= 0; more--) {
      if (dice.chance(8)) dead();
      if (dice.chance(15) && (more > 0 || after.frame != null)) last(first);
      else {
        handler(first, floor, code.starts.size());
        block(dice.below(3));
        if (dice.chance(30)) divide(dice.pick(108, 112));
        if (after.frame != null) become(after.frame.stack);
        if (more > 0) code.jump(167, after);
      }
    }
    code.bind(after);
  }

  /** A handler that returns, without another division. It may cover itself and what is still to come. */
  private void last(int first) {
    handler(first, 0, Integer.MAX_VALUE);
    gather();
    end();
  }

  /** A handler that stands here, with entries for what was written from an instruction on. */
  private void handler(int first, int from, int to) {
    List<ExceptionTable.Range> ranges = new ArrayList<>();
    for (int n = 1 + dice.weighted(72, 22, 6); n > 0; n--) ranges.add(table.range(dice.chance(10) ? floor : first, code.starts.size()));
    char[] locals = table.common(ranges);
    table.add(new ExceptionTable.Place(code.size, locals, from, to), ranges);
    stand(locals);
    use();
  }

  private void stand(char[] locals) {
    code.frame = new Frame(0);
    code.frame.locals = locals.clone();
    code.frame.stack = "A";
    code.maxStack = Math.max(code.maxStack, 1);
    code.reachable = true;
  }

  /** A handler before what it covers, which is left after some turns. Whether there was a local left for the counter. */
  private boolean retry(int items) {
    int counter = place('I');
    if (counter < 0 || counter == trail || limit - code.cost < 60) return false;
    exactly(0);
    store(counter);
    kept[counter] = true;
    Code.Label body = new Code.Label();
    if (dice.chance(30)) become("A"); // and on into the handler
    else code.jump(167, body);
    char[] before = frozen;
    frozen = code.frame.locals.clone();
    stand(frozen);
    repeat(items, counter, body);
    frozen = before;
    kept[counter] = false;
    return true;
  }

  private void repeat(int items, int counter, Code.Label body) {
    Code.Label again = new Code.Label(), exit = new Code.Label();
    code.bind(again);
    int start = code.cost, first = code.starts.size();
    boolean used = dice.chance(50);
    if (used) use();
    count(counter);
    load(counter);
    int turns = code.size + 1;
    code.emit("", "I", 16, 0);
    code.frame.pop("II");
    code.jump(dice.pick(162, 163), exit); // IF_ICMPGE, IF_ICMPGT
    if (!used) use();
    if (body.frame != null) {
      become(body.frame.stack);
      code.bind(body);
    }
    boolean alike = exit.frame.stack.equals("A");
    inside(items, new Loop(alike ? again : null, exit, exit.frame.stack, counter));
    if (dice.chance(85)) divide(dice.pick(108, 112));
    if (dice.chance(20)) {
      become("A");
      code.jump(167, again);
    } else become(exit.frame.stack);
    cover(again, first);
    code.put(turns, turns(start));
    code.bind(exit);
  }

  /** Entries for what was written from an instruction on, with a handler before it. */
  private void cover(Code.Label handler, int first) {
    List<ExceptionTable.Range> ranges = new ArrayList<>();
    int end = code.starts.size();
    for (int n = 1 + dice.weighted(75, 25); n > 0; n--) ranges.add(table.range(first, end));
    table.add(new ExceptionTable.Place(handler.at, handler.frame.locals, first, end), ranges);
  }

  /** Does something, or nothing, with the reference that a handler begins with. */
  private void use() {
    int at = place('A');
    switch (dice.weighted(30, 30, 15, 25)) {
      case 0 -> code.emit("A", "", 87);
      case 1 -> {
        if (at >= 0) store(at);
      }
      case 2 -> ask();
      default -> {}
    }
    if (trail >= 0 && dice.chance(85)) note();
  }

  // ---- the exception table

  @Override
  List<Sample.Handler> handlers() {
    for (int n = dice.weighted(50, 40, 10); n > 0; n--) last(floor);
    for (int n = dice.weighted(20, 35, 25, 20); n > 0; n--) table.more();
    if (dice.chance(25)) table.shuffle();
    return table.entries;
  }

  /** A catch type: 0, or the index of a class. */
  private int type() {
    if (dice.chance(30)) return 0;
    String name = CLASSES[dice.weighted(20, 8, 6, 8, 10, 5, 5, 5)];
    for (Sample.Constant c : pool) if (name.equals(c.name()) && dice.chance(80)) return c.index();
    return add('L', HotSpot.takes(name) ? 1 : 0, name);
  }
}
