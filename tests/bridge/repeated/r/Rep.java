package r;

import java.lang.annotation.Repeatable;

@Repeatable(Reps.class)
public @interface Rep {
  int value();
}
