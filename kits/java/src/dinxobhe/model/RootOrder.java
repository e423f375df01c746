package dinxobhe.model;

import dinxobhe.frames.Ref;
import java.util.ArrayList;
import java.util.List;
import java.util.Map;
import java.util.TreeMap;
import javax.lang.model.element.Element;

/** The order in which javac finds annotated elements: each before what is in it, by the order of members. */
final class RootOrder {
    private final Model model;

    RootOrder(Model model) {
        this.model = model;
    }

    /** Elements with those of each unit in this order, the units by their names, and packages behind them. */
    List<Element> of(List<HostElement> found) {
        Map<String, List<HostElement>> byUnit = new TreeMap<>();
        found.forEach(one -> byUnit.computeIfAbsent(one.ref().unit(), key -> new ArrayList<>()).add(one));
        List<Element> ordered = new ArrayList<>();
        List<Element> packages = new ArrayList<>();
        for (List<HostElement> unit : byUnit.values()) {
            unit.sort(this::compare);
            (unit.get(0).ref().isPackage() ? packages : ordered).addAll(unit);
        }
        ordered.addAll(packages);
        return ordered;
    }

    private int compare(HostElement one, HostElement other) {
        List<Integer> path = one.ref().path();
        List<Integer> otherPath = other.ref().path();
        HostElement around = model.element(Ref.ofUnit(one.ref().unit()));
        int step = 0;
        while (step < path.size() && step < otherPath.size() && path.get(step).equals(otherPath.get(step))) {
            around = model.element(around.ref().child(path.get(step)));
            step++;
        }
        if (step == path.size() || step == otherPath.size()) {
            return Integer.compare(path.size(), otherPath.size());
        }
        return Integer.compare(rank(around, path.get(step)), rank(around, otherPath.get(step)));
    }

    /** The place of a child, the type parameters first. */
    private int rank(HostElement around, int step) {
        HostElement child = model.element(around.ref().child(step));
        int enclosed = around.getEnclosedElements().indexOf(child);
        return enclosed < 0 ? step - Integer.MAX_VALUE / 2 : enclosed;
    }
}
