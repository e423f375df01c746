package e;

@interface Kept {
  enum Kind { ONE, TWO }

  boolean yes() default true;
  byte small() default 1;
  char letter() default 'c';
  double wide() default 2.5;
  float part() default 1.5f;
  int number() default 3;
  long large() default 4;
  short little() default 5;
  String text() default "";
  Class<?> type() default Object.class;
  Kind kind() default Kind.ONE;
  Deprecated nested() default @Deprecated;
  int[] items() default {};
}
