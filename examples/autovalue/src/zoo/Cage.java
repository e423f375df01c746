package zoo;

import com.google.auto.value.AutoValue;
import java.util.Optional;

/** A place in the zoo, which may be empty. */
@AutoValue
public abstract class Cage {
    public abstract int number();

    public abstract Optional<Animal> animal();

    public static Builder builder() {
        return new AutoValue_Cage.Builder();
    }

    /** Makes a cage. */
    @AutoValue.Builder
    public abstract static class Builder {
        public abstract Builder number(int number);

        public abstract Builder animal(Animal animal);

        public abstract Cage build();
    }
}
