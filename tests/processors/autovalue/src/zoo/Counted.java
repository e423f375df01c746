package zoo;

import com.google.auto.value.AutoValue;
import java.io.Serializable;

@AutoValue
public abstract class Counted implements Serializable {
  private static final long serialVersionUID = 21L;
  public abstract int count();
}
