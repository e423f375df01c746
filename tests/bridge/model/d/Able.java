package d;
public interface Able<A> extends Comparable<A>, java.io.Serializable {
  int SIZE = 1;
  A get();
  default void def(A a) {}
  static <S> S stat(S s) { return s; }
  class InFace {}
  enum E { X }
  @interface Anno {}
}
