package dinxobhe.model;

import java.util.function.Supplier;

/** What is fetched once a round, where it is asked for, and kept until the round ends. */
final class Kept<T> {
    private final Model model;
    private final Supplier<T> fetch;
    private T value;
    /** Is set after the value, so that a thread that sees the round sees its value. */
    private volatile int round = -1;

    Kept(Model model, Supplier<T> fetch) {
        this.model = model;
        this.fetch = fetch;
    }

    T get() {
        int now = model.round();
        if (round != now) {
            value = fetch.get();
            round = now;
        }
        return value;
    }
}
