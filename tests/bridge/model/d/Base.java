package d;
import java.util.*;
@Inh("base")
abstract class Base<B extends Comparable<? super B>> implements Able<B> {
  protected int shared;
  int size;
  private void secret() {}
  void packaged(B b) {}
  protected <Z> Z generic(Z z, List<B> l) { return z; }
  static void sameStatic() {}
  class Leaf { B b; }
  Leaf leaf;
  Base(int x) {}
  Base() {}
}
