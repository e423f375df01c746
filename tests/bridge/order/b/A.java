package b;

@Deprecated
class A {
    @Override public String toString() { return ""; }
    @FunctionalInterface interface Last { void run(@Deprecated int x); }
    @SafeVarargs static <T> void all(@Deprecated T... all) {}
    @Deprecated class Inner { @Deprecated int field; @Override public int hashCode() { return 1; } }
    @Deprecated int field;
}
