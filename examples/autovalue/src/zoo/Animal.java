package zoo;

import com.google.auto.value.AutoValue;
import java.util.List;

/** An animal with its names. */
@AutoValue
public abstract class Animal {
    public abstract String kind();

    public abstract List<String> names();

    public static Animal of(String kind, List<String> names) {
        return new AutoValue_Animal(kind, names);
    }
}
