package c;

/** Values of which each is an expression of literals. */
@interface Values {
    boolean yes() default false;
    byte b() default 0;
    short s() default 0;
    char c() default 0;
    int i() default 0;
    long l() default 0;
    float f() default 0;
    double d() default 0;
    String text() default "";
    int[] ints() default {};
    long[] longs() default {};
    boolean[] truths() default {};
    double[] doubles() default {};
    String[] texts() default {};
}

@Values(yes = 1 + 1 == 2, b = (byte) 0x1ff, s = 1 << 3, c = 'a' + 1, i = 10 * 1024, l = 1L << 40, f = 1 / 2f,
    d = -1.5e3,
    text = "a" + 1 + 'c' + 2.5f + true + 3L + 1e10 + -1,
    ints = {-2147483648, 0x7fffffff + 1, 7 / 2, -7 / 2, -7 % 3, 1 - 2 - 3, 1 + 2 * 3, (1 + 2) * 3, ~5, 6 & 3,
        6 | 3, 6 ^ 3, -1 >> 1, -1 >>> 28, 1 << 33, 'b' - 'a', (int) 3.9, (int) 1e20, (char) 65601,
        (short) 70000, +5, - -5, 0b101 + 010,
        true ? 1 : 2, false ? 1 : 3 < 2 ? 4 : 5, 1_000 + 1, -0x80000000},
    longs = {1 + 2147483647, 1L + 2147483647, -9223372036854775808L, 0xffffffffffffffffL + 0, -1L >>> 60,
        (long) 1e30},
    truths = {!true, 1 < 2, 2 <= 1, 1.0 / 0 > 5, 'a' == 97, true && false, true | false, true ^ true,
        0.0 == -0.0,
        0.0 / 0 != 0.0 / 0, true == false},
    doubles = {1 / 2, 1 / 2.0, 5 % 3.5, (float) 0.1, 0x1.8p1 + 0, 1e-3 * 2, (double) 1L, .5 + 1.},
    texts = {"\t\"\\\u0041\101" + "", "" + '\'' + '\n', (String) "x" + (1 + 2), "f" + 1f / 3})
class C {}
