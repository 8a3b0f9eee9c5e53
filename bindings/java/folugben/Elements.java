package folugben;

import java.util.Arrays;
import java.util.Comparator;
import java.util.List;
import java.util.Objects;

/** Elements of plain objects, and the order in which sets, bags and states are written. */
final class Elements {
    /**
     * The order of elements, for sets and maps.
     *
     * <p>They throw a ClassCastException if asked for another object, as their contract has it.
     */
    static final Comparator<Object> ORDER = (one, other) -> compare(asked(one), asked(other));

    private Elements() {}

    /** Returns an element of each. */
    static List<Element> each(Object[] objects, String name) {
        return each(Arrays.asList(Objects.requireNonNull(objects, name)), 0);
    }

    private static List<Element> each(List<?> objects, int depth) {
        return objects.stream().map(object -> of(object, depth)).toList();
    }

    /** Returns what {@link Element#of} makes of the object, within so many lists. */
    static Element of(Object value, int depth) {
        if (value == null)
            return Element.undef();
        if (value instanceof Element made)
            return made;
        if (value instanceof Boolean truth)
            return new Element.Bool(truth);
        if (value instanceof Long || value instanceof Integer || value instanceof Short
                || value instanceof Byte)
            return new Element.Num(((Number) value).longValue());
        if (value instanceof String text)
            return new Element.Text(text);
        if (value instanceof List<?> items)
            return list(items, depth + 1);
        throw new IllegalArgumentException(
                "no element: " + value + " (" + value.getClass().getName() + ")");
    }

    private static Element asked(Object object) {
        if (object instanceof Element element)
            return element;
        throw new ClassCastException(
                object + " is no folugben.Element: ask for Element.of(" + object + ")");
    }

    /** Too deep a list is refused on the way down: it may hold itself. */
    private static Element list(List<?> items, int depth) {
        if (depth > Element.MAX_DEPTH)
            throw Texts.Words.isTooDeep();
        return new Element.ListOf(each(items, depth));
    }

    static int compare(Element one, Element other) {
        if (one instanceof Element.Bool first && other instanceof Element.Bool second)
            return Boolean.compare(first.value(), second.value());
        if (one instanceof Element.Num first && other instanceof Element.Num second)
            return Long.compare(first.value(), second.value());
        if (one instanceof Element.Text first && other instanceof Element.Text second)
            return compare(first.value(), second.value());
        if (one instanceof Element.ListOf first && other instanceof Element.ListOf second)
            return compare(first.items(), second.items());
        return Integer.compare(kind(one), kind(other));
    }

    private static int kind(Element element) {
        if (element instanceof Element.Undef)
            return 0;
        if (element instanceof Element.Bool)
            return 1;
        if (element instanceof Element.Num)
            return 2;
        return element instanceof Element.Text ? 3 : 4;
    }

    /** Compares by code points, as UTF-8 orders them: compareTo puts a surrogate before U+E000. */
    private static int compare(String one, String other) {
        int length = Math.min(one.length(), other.length());
        for (int at = 0; at < length; at++)
            if (one.charAt(at) != other.charAt(at))
                return Integer.compare(rank(one.charAt(at)), rank(other.charAt(at)));
        return Integer.compare(one.length(), other.length());
    }

    /** Ranks surrogates after all other units. */
    private static int rank(char unit) {
        return Character.isSurrogate(unit) ? unit + 0x10000 : unit;
    }

    /** Compares lists: first by length, then by the items from left to right. */
    static int compare(List<Element> one, List<Element> other) {
        int order = Integer.compare(one.size(), other.size());
        for (int at = 0; order == 0 && at < one.size(); at++)
            order = compare(one.get(at), other.get(at));
        return order;
    }
}
