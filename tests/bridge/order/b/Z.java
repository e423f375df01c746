package b;

@FunctionalInterface
interface Z {
    void run();
    @Deprecated default void more() {}
}
