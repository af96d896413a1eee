import java.util.List;
import java.util.Map;
import java.util.TreeMap;
import java.util.TreeSet;

/** Methods with an exception table: its shapes, and what becomes of the first exception, as the virtual machine that runs this has it. */
final class Handlers implements Tally {
  private static final String ANY = "any";
  private static final List<String> SHAPES = List.of(
      "an entry starts at a division", "an entry starts just after one", "an entry ends at a division", "an entry ends just after one",
      "an entry ends at the end of the code", "an entry covers its own handler", "an entry covers the handler of another",
      "an entry stands after its handler", "one lies inside another", "two lie across each other", "two cover the same");

  private int methods, entries, thrown, taken, returned, later;
  private final Map<String, Integer> shapes = new TreeMap<>(), takers = new TreeMap<>(), passed = new TreeMap<>(); // the last two by catch type

  @Override
  public void add(Sample sample, String end) throws Exception {
    methods++;
    entries += sample.handlers().size();
    for (String shape : shapes(sample)) shapes.merge(shape, 1, Integer::sum);
    if (!HotSpot.end(sample.with(sample.code(), List.of())).equals("throw arithmetic")) return;
    thrown++;
    int taker = HotSpot.taker(sample), first = HotSpot.taker(sample.with(sample.code(), untyped(sample)));
    if (first != taker) passed.merge(type(sample, first), 1, Integer::sum);
    if (taker < 0) return;
    taken++;
    takers.merge(type(sample, taker), 1, Integer::sum);
    if (taker > 0) later++;
    if (end.startsWith("return")) returned++;
  }

  private static List<Sample.Handler> untyped(Sample sample) {
    return sample.handlers().stream().map(h -> new Sample.Handler(h.start(), h.end(), h.handler(), 0)).toList();
  }

  private static String type(Sample sample, int entry) {
    int type = sample.handlers().get(entry).type();
    return type == 0 ? ANY : sample.at(type).name();
  }

  // ---- shapes

  private static TreeSet<String> shapes(Sample sample) {
    TreeSet<String> out = new TreeSet<>();
    boolean[] divides = divisions(sample.code());
    for (Sample.Handler h : sample.handlers()) {
      note(out, 0, divides[h.start()]);
      note(out, 1, h.start() > 0 && divides[h.start() - 1]);
      note(out, 2, divides[h.end()]);
      note(out, 3, divides[h.end() - 1]);
      note(out, 4, h.end() == sample.code().length);
      note(out, 5, covers(h, h.handler()));
      note(out, 7, h.handler() < h.start());
      for (Sample.Handler other : sample.handlers()) if (other != h) two(out, h, other);
    }
    return out;
  }

  private static void two(TreeSet<String> out, Sample.Handler h, Sample.Handler other) {
    boolean same = h.start() == other.start() && h.end() == other.end();
    note(out, 6, h.handler() != other.handler() && covers(h, other.handler()));
    note(out, 8, !same && h.start() <= other.start() && other.end() <= h.end());
    note(out, 9, h.start() < other.start() && other.start() < h.end() && h.end() < other.end());
    note(out, 10, same);
  }

  private static void note(TreeSet<String> out, int shape, boolean has) {
    if (has) out.add(SHAPES.get(shape));
  }

  private static boolean covers(Sample.Handler h, int offset) {
    return h.start() <= offset && offset < h.end();
  }

  /** Whether a division stands at an offset, the code's end included. */
  private static boolean[] divisions(byte[] code) {
    boolean[] out = new boolean[code.length + 1];
    for (int pc = 0; pc < code.length; pc += Coverage.length(code, pc)) out[pc] = Steps.divides(code[pc]);
    return out;
  }

  // ---- what was seen

  /** Whether each shape is there, half of the methods catch something, each class that takes the exception does so, and each other lets it pass. */
  @Override
  public boolean complete() {
    boolean all = shapes.keySet().containsAll(SHAPES) && 2 * taken >= methods && takers.containsKey(ANY);
    for (String name : HandlerMaker.CLASSES) {
      boolean takes = HotSpot.takes(name);
      all &= takers.containsKey(name) == takes && passed.containsKey(name) != takes;
    }
    return all && returned > 0 && returned < taken && taken < thrown && later > 0;
  }

  @Override
  public void print() {
    System.out.println(entries + " entries; " + thrown + " methods throw, " + taken + " catch their first exception, " + (thrown - taken) + " do not");
    System.out.println("of those that catch it " + returned + " return, " + (taken - returned) + " end with a later one; the taker is not the first entry: " + later);
    takers.forEach((type, n) -> System.out.println("taken by " + type + ": " + n));
    passed.forEach((type, n) -> System.out.println("passed by " + type + ", which covers it: " + n));
    for (String shape : SHAPES) System.out.println(shape + ": " + shapes.getOrDefault(shape, 0));
  }
}
