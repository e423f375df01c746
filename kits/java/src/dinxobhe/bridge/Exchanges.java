package dinxobhe.bridge;

import dinxobhe.frames.Tag;
import java.io.PrintStream;
import java.util.Comparator;
import java.util.EnumMap;
import java.util.Locale;
import java.util.Map;

/** How many frames of each kind were answered, and how long the processor waited for the answers. */
final class Exchanges {
    private static final double NANOSECONDS = 1e9;

    private final Map<Tag, Count> counts = new EnumMap<>(Tag.class);

    private static final class Count {
        private int frames;
        private long nanoseconds;

        @Override
        public String toString() {
            return frames + " in " + String.format(Locale.ROOT, "%.3f s", nanoseconds / NANOSECONDS);
        }

        void add(int more, long time) {
            frames += more;
            nanoseconds += time;
        }
    }

    void add(Tag tag, long nanoseconds) {
        counts.computeIfAbsent(tag, key -> new Count()).add(1, nanoseconds);
    }

    /** Prints a line for all frames, and then one for each kind, the most frequent first. */
    void print(PrintStream to) {
        Count all = new Count();
        counts.values().forEach(count -> all.add(count.frames, count.nanoseconds));
        to.println("exchanges: " + all);
        counts.entrySet().stream()
            .sorted(Comparator.comparingInt((Map.Entry<Tag, Count> entry) -> -entry.getValue().frames))
            .forEach(entry -> to.println("  " + entry.getKey() + ": " + entry.getValue()));
    }
}
