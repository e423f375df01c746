package dinxobhe.model;

import java.util.AbstractList;
import java.util.List;
import java.util.RandomAccess;
import java.util.stream.Collector;
import java.util.stream.Collectors;

/**
 * A list that can't be changed, and whose text is that of javac's lists: the items with commas between them.
 */
final class JavacList<E> extends AbstractList<E> implements RandomAccess {
    private final List<E> items;

    private JavacList(List<? extends E> items) {
        this.items = List.copyOf(items);
    }

    static <E> List<E> of(List<? extends E> items) {
        return new JavacList<>(items);
    }

    static <E> Collector<E, ?, List<E>> collector() {
        return Collectors.collectingAndThen(Collectors.toList(), JavacList::new);
    }

    @Override
    public E get(int index) {
        return items.get(index);
    }

    @Override
    public int size() {
        return items.size();
    }

    @Override
    public String toString() {
        return items.stream().map(Object::toString).collect(Collectors.joining(","));
    }
}
