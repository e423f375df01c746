package p;

/** What is implied. */
public interface Kinds extends Runnable, java.io.Serializable {
  public static final int ONE = 1;
  public abstract void run();
  static void still() {}
  default int more(int a, long b) { return 1; }
  private void own() {}
  abstract class Part {}
  public static enum Empty {}
  @interface Noted { String[] value() default {"a", "b"}; Class<?> type() default int[].class; int SIZE = 2; }
}
