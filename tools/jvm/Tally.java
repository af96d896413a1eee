/** What is counted of the methods of a mode. */
interface Tally {
  /** Notes a method and its end. */
  void add(Sample sample, String end) throws Exception;

  /** Whether the methods have all that they should. */
  boolean complete();

  void print();
}
