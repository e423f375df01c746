package r;

public @interface Reps {
  Rep[] value();
}
