package zoo;

import com.google.auto.value.AutoValue;

/**
 * javac: the property is a zoo.Kind, as a private type is not inherited; by a look-up without access it is a
 * Hidden2.Kind.
 */
@AutoValue
abstract class Hidden extends Hidden2 {
  abstract Kind kind();
}

class Hidden2 {
  private static class Kind {}
}
