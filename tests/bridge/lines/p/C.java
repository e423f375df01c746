package p;

import java.util.List;

@Deprecated
public
class
C<T,
  U extends List<T>> {
  int a,
    b;

  <V>
  void
  m(int x,
    List<V> y) {
  }

  C(int... all) {
  }

  enum E {
    @Deprecated
    X,
    Y {
    };

    static {
    }
  }

  interface I {
    int
      SIZE = 1;

    default
    int
    size() {
      return SIZE;
    }
  }

  @interface A {
    int of()
      default 1;
  }
}

class Second {
  class Inner {
  }
}
