import java.util.ArrayList;
import java.util.Collections;
import java.util.List;
import java.util.function.IntPredicate;
import java.util.function.IntSupplier;
import java.util.stream.IntStream;

/**
 * The exception table of a method under construction.
 *
 * <p>A handler knows the locals that are known at each instruction it covers; its stack is one reference. Instructions are meant by their number in the
 * code's list of starts.
 */
final class ExceptionTable {
  /** A handler: its offset, the kinds of the locals that it knows, and which instructions it may cover, `to` excluded. */
  record Place(int at, char[] locals, int from, int to) {}

  /** Instructions that an entry covers, `to` excluded. */
  record Range(int from, int to) {}

  final List<Sample.Handler> entries = new ArrayList<>();
  private final List<Place> places = new ArrayList<>();
  private final Dice dice;
  private final Code code;
  private final IntSupplier types;

  /** A table whose catch types come from a supplier. */
  ExceptionTable(Dice dice, Code code, IntSupplier types) {
    this.dice = dice;
    this.code = code;
    this.types = types;
  }

  // ---- entries

  /** A handler with an entry for each of the ranges. */
  void add(Place place, List<Range> ranges) {
    places.add(place);
    for (Range range : ranges) entries.add(entry(place, range));
  }

  /** One more entry for some handler, where its locals are known. */
  void more() {
    Place place = dice.pick(places);
    int end = code.starts.size();
    Range range = range(place.from, Math.min(place.to, end));
    if (place.to > end && dice.chance(35)) range = new Range(range.from, end); // to the end of the code
    if (suits(place, range)) entries.add(dice.below(entries.size() + 1), entry(place, range));
  }

  void shuffle() {
    for (int n = entries.size(); n > 1; n--) Collections.swap(entries, n - 1, dice.below(n));
  }

  private Sample.Handler entry(Place place, Range range) {
    if (!suits(place, range)) throw new IllegalStateException("a handler knows locals that are not known where it covers");
    return new Sample.Handler(offset(range.from), offset(range.to), place.at, types.getAsInt());
  }

  private int offset(int number) {
    return number < code.starts.size() ? code.starts.get(number).at() : code.size;
  }

  // ---- ranges

  /** All of these instructions, or some of them. At least one is reached. */
  Range range(int from, int to) {
    while (true) {
      Range range = dice.chance(30) ? new Range(from, to) : part(from, to);
      if (some(range, n -> code.starts.get(n).locals() != null)) return range;
    }
  }

  private Range part(int from, int to) {
    int[] divisions = IntStream.range(from, to).filter(this::division).toArray();
    if (divisions.length > 0 && dice.chance(88)) return near(dice.pick(divisions), from, to);
    int start = dice.from(from, to - 1);
    return new Range(start, dice.from(start + 1, to));
  }

  /** From or to a division, with it or without it. */
  private Range near(int division, int from, int to) {
    int after = division + 1;
    return switch (dice.weighted(20, after < to ? 15 : 0, division > from ? 30 : 0, 20, 15)) {
      case 0 -> new Range(division, dice.from(after, to));
      case 1 -> new Range(after, dice.from(after + 1, to));
      case 2 -> new Range(dice.from(from, division - 1), division);
      case 3 -> new Range(dice.from(from, division), after);
      default -> new Range(dice.from(from, division), dice.from(after, to));
    };
  }

  private boolean division(int number) {
    Code.Start start = code.starts.get(number);
    return start.locals() != null && Steps.divides(code.opcode(start.at()));
  }

  private static boolean some(Range range, IntPredicate which) {
    return IntStream.range(range.from, range.to).anyMatch(which);
  }

  // ---- what a handler knows

  /** The locals that are known at all of these instructions. */
  char[] common(List<Range> ranges) {
    char[] out = null;
    for (Range range : ranges) {
      for (Code.Start start : code.starts.subList(range.from, range.to)) {
        if (out == null && start.locals() != null) out = start.locals().clone();
        else if (start.locals() != null) for (int i = 0; i < out.length; i++) if (out[i] != start.locals()[i]) out[i] = 0;
      }
    }
    return out;
  }

  /** Whether the locals that a handler knows are known at all of these instructions. */
  private boolean suits(Place place, Range range) {
    return !some(range, n -> {
      char[] locals = code.starts.get(n).locals();
      return locals != null && IntStream.range(0, locals.length).anyMatch(i -> place.locals[i] != 0 && place.locals[i] != locals[i]);
    });
  }
}
