package e;

import java.util.List;
import java.util.Map;

/** A class with a type of each kind. */
@Kept(text = "t", number = 2, type = String[].class, kind = Kept.Kind.TWO, nested = @Deprecated, items = {1, 2})
abstract class Calls<T extends Comparable<T> & Runnable, U> implements Map<String, T> {
  int number;
  Integer boxed;
  long[] many;
  List<String> texts;
  List<? extends Number> below;
  List<? super Integer> above;
  List raw;
  T variable;
  U other;
  Missing missing;
  Inner inner;
  Outer<String>.Part part;

  Calls() {}

  <X extends Exception> void method(X one, String... more) throws X, java.io.IOException {}

  class Inner {}

  static class Outer<O> {
    class Part {}
  }

  enum Kind { FIRST }
}
