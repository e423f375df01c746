package zoo;

import com.google.auto.value.AutoValue;
import java.io.Serializable;

/** javac: a constant of 21; the text of an initialiser with an operator is no constant form. */
@AutoValue
abstract class Serial implements Serializable {
  private static final long serialVersionUID = 3L * 7;
  abstract int count();
}
