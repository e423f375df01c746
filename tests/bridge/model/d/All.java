package d;

import java.io.Serializable;
import java.util.*;
import java.lang.annotation.*;

/** A comment.
 *  Two lines.
 */
@Deprecated
@Marks(b = 7, c = 97, f = 1, d = 2, s = 3, l = 4, text = "a\"b'c\n\u00e9", type = String[].class,
  types = {int.class, List.class}, kind = All.Kind.TWO, kinds = All.Kind.ONE, nested = @Nested(3),
  nesteds = {@Nested, @Nested(1)}, chars = {'x', '\''}, yes = true)
public abstract class All<T extends Comparable<? super T>, N extends Number & Serializable> extends Base<T>
  implements Able<T>, Cloneable {
  public enum Kind implements Runnable { ONE, @Deprecated TWO { public void run() {} }; int x;
    Kind() {} public void run() {} static void stat() {} }
  enum Plain { A, B; int y; }
  public static final int SIZE = 3 * 4;
  static final byte B = 3;
  static final char C = 97;
  static final float F = 1;
  static final double D = 1e10;
  static final long L = 1L << 40;
  static final String TEXT = "a" + SIZE;
  static final boolean YES = !false;
  final int notConstant = hashCode();
  protected List<? extends T> list;
  Map<String, ? super N>[][] maps;
  class Inner { class Deep<X> {} Deep<String> deep; }
  static class Within<Q> { Q q; }
  interface Face { int f(); }
  Inner inner;
  All<T, N>.Inner.Deep<T> deep;
  All<String, Integer>.Inner written;
  Within<T> within;
  @Override public String toString() { return ""; }
  public <K, V extends K> V find(K key, T t, int... at) throws java.io.IOException, IllegalStateException {
    return null;
  }
  @Reps({@Rep(1), @Rep(2)}) abstract void contained();
  @Rep(1) @Rep(2) abstract void repeated();
  @Rep(3) void once(@Deprecated final String param) {}
  @Use String used(@Use int x, @Use String[] y) { return null; }
  @UseAndMethod List<String> both() { return null; }
  @Use Map<String, Integer> field;
  @Override public T get() { return null; }
  static void sameStatic() {}
  private int hidden;
  native void nat();
  synchronized strictfp void sync() {}
  transient volatile int tv;
}
