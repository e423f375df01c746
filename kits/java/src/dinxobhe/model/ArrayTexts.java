package dinxobhe.model;

import java.util.ArrayList;
import java.util.List;

/** Texts of arrays in annotations, which the host hands on whole where it can't tell one of their values. */
final class ArrayTexts {
    private ArrayTexts() {}

    static boolean isArray(String text) {
        return text.startsWith("{") && text.endsWith("}");
    }

    /** The texts of an array's items. */
    static List<String> items(String text) {
        List<String> items = new ArrayList<>();
        int end = text.length() - 1;
        for (int from = 1; from < end;) {
            int comma = pastItem(text, from, end);
            String item = text.substring(from, comma).strip();
            if (!item.isEmpty()) {
                items.add(item);
            }
            from = comma + 1;
        }
        return items;
    }

    /** The place behind an item, where a comma is or the end. */
    private static int pastItem(String text, int from, int end) {
        int depth = 0;
        int at = from;
        while (at < end && (depth > 0 || text.charAt(at) != ',')) {
            char c = text.charAt(at);
            depth += "([{".indexOf(c) >= 0 ? 1 : ")]}".indexOf(c) >= 0 ? -1 : 0;
            at = c == '"' || c == '\'' ? pastLiteral(text, at, end) : at + 1;
        }
        return at;
    }

    private static int pastLiteral(String text, int from, int end) {
        int at = from + 1;
        while (at < end && text.charAt(at) != text.charAt(from)) {
            at += text.charAt(at) == '\\' ? 2 : 1;
        }
        return Math.min(at + 1, end);
    }
}
