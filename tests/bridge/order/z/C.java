package z;

enum C {
    @Deprecated X { @Override public String toString() { return ""; } }, Y;
    @Override public String toString() { return "y"; }
}
