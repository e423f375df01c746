package shop;

public @interface Builder {
  String prefix() default "";
}
