import java.util.Map;
import java.util.TreeMap;

/** Methods with a descriptor, by their return type, and what became of the ints that they returned. */
final class Returns implements Tally {
  private static final String TYPES = "BCDFIJLSVZ[";

  private final Map<Character, int[]> tallies = new TreeMap<>(); // methods, returned, narrowed to another int
  private int wrong;

  /**
   * Notes a method and its end. Where an int is narrowed, the same code is run once more as a method that returns an int: what it gives, narrowed as
   * JVMS says, is to be the end.
   */
  @Override
  public void add(Sample sample, String end) throws Exception {
    String descriptor = sample.descriptor();
    char type = descriptor.charAt(descriptor.lastIndexOf(')') + 1);
    int[] tally = tallies.computeIfAbsent(type, t -> new int[3]);
    tally[0]++;
    if (!end.startsWith("return")) return;
    tally[1]++;
    if ("ZBCS".indexOf(type) < 0) return;
    String whole = HotSpot.end(sample.returning("I"));
    int value = Integer.parseUnsignedInt(whole.substring(whole.lastIndexOf(' ') + 1), 16);
    if (!end.equals(String.format("return int %08X", Values.narrow(type, value)))) wrong++;
    if (!end.equals(whole)) tally[2]++;
  }

  /** Whether each type is returned, each narrow one narrowed, and none otherwise than JVMS says. */
  @Override
  public boolean complete() {
    boolean all = wrong == 0;
    for (char type : TYPES.toCharArray()) {
      int[] tally = tallies.getOrDefault(type, new int[3]);
      all &= tally[1] > 0 && (tally[2] > 0 || "ZBCS".indexOf(type) < 0);
    }
    return all;
  }

  @Override
  public void print() {
    tallies.forEach((type, n) -> System.out.println(type + ": " + n[0] + " methods, " + n[1] + " return, " + n[2] + " an int that is narrowed to another"));
    System.out.println("narrowed otherwise than JVMS says: " + wrong);
  }
}
