package d;
import java.lang.annotation.*;
@Retention(RetentionPolicy.RUNTIME)
@Documented
public @interface Marks {
  byte b() default 1; char c() default 'c'; float f() default 1.5f; double d() default 2.5;
    short s() default -1; long l() default 5; int i() default Integer.MAX_VALUE;
  String text() default "t"; Class<?> type() default Object.class; Class<?>[] types() default {};
    All.Kind kind() default All.Kind.ONE; All.Kind[] kinds() default {};
  Nested nested() default @Nested; Nested[] nesteds() default {}; char[] chars() default {};
    boolean yes() default false;
}
@interface Nested { int value() default 0; }
@Inherited @interface Inh { String value(); }
@Repeatable(Reps.class) @interface Rep { int value(); }
@interface Reps { Rep[] value(); }
@Target(ElementType.TYPE_USE) @interface Use {}
@Target({ElementType.TYPE_USE, ElementType.METHOD}) @interface UseAndMethod {}
class Sub extends All<String, Integer> {
  void contained() {} void repeated() {} public int compareTo(String s) { return 0; }
  @Override void packaged(String s) {}
  @Override protected <Y> Y generic(Y y, java.util.List<String> l) { return y; }
  int size;
  Leaf mine; Inner in; Within<String> w; Missing missing; java.util.Lost<String> lost;
}
class Raw extends Base {
  public Object get() { return null; } public int compareTo(Object o) { return 0; } Leaf l;
}
@FunctionalInterface interface Fun<X> { X apply(X x); boolean equals(Object o); default void more() {} }
interface NotFun { void a(); void b(); }
class Last { int x; public Last() {} }
class Lone { int x; }
@interface Empty {}
