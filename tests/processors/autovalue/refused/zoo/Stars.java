package zoo;

import com.google.auto.value.AutoValue;
import java.util.*;
import q.*;

/** javac: List is java.util.List, as q.List is not accessible; by a look-up without access it is unknown. */
@AutoValue
abstract class Stars {
  abstract List<Open> list();
}
