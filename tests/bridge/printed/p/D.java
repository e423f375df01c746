package p;

/** x
 * @deprecated no */
class D {
  /** @deprecated one */ int a;
  /** text @deprecated no */ int b;
  /** text
      @deprecated */ int c;
  /** text
      @deprecatedX */ int d;
  /** text
   * {@code
   * @deprecated } */ int e;
  /** @deprecated */ @Deprecated int f;
  /** @deprecated*/ void g() {}
  /**@deprecated*/ D() {}
  /** @deprecated x */ class I { /** Written. */ I() {} }
  /** @deprecated x */ enum E { /** @deprecated y */ X, Y }
  /***** @deprecated q */ int i;
  /* @deprecated q */ int j;
  /** other */ /** @deprecated q */ int l;
  /** @deprecated both */ int n, o;
  /** * @deprecated star */ int p;
  /**
   ** @deprecated star */ int q;
  /** @deprecated: */ int r;
  /** @since 1 @deprecated s */ int s;
  <T extends Number & Comparable<T>, U> void t(T t, @Deprecated final U... u) throws Exception, Error {}
  private static abstract class Nested<T> extends D implements Comparable<T>, Runnable {
    protected static volatile int[] some;
    static final char C = '\u00e9';
    @Deprecated @SafeVarargs protected static <V> java.util.List<? super V> list(V... all) { return null; }
    native void nothing();
  }
}
