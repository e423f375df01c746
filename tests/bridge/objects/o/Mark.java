package o;

public @interface Mark {
    enum Kind { ONE, TWO }

    int number() default 1;
    byte small() default 2;
    char letter() default 'c';
    double part() default 0.5;
    String[] texts() default {};
    Kind kind() default Kind.ONE;
    Kind[] kinds() default {Kind.ONE, Kind.TWO};
    Class<?> type() default Object.class;
    Class<?>[] types() default {};
    Tag tag() default @Tag("default");
    Tag[] tags() default {};
    String unknown() default "";
}
