package folugben;

import java.util.Collection;
import java.util.Collections;
import java.util.List;
import java.util.Map;
import java.util.Objects;
import java.util.Set;
import java.util.SortedMap;
import java.util.SortedSet;
import java.util.TreeMap;
import java.util.TreeSet;

/**
 * The value of a location: an element, a set or a bag.
 *
 * <p>Values are immutable, and equal if they have the same content, in whichever order a set or a
 * bag was passed. Each is one of the records {@link Element.Undef}, {@link Element.Bool}, {@link
 * Element.Num}, {@link Element.Text}, {@link Element.ListOf}, {@link SetOf} and {@link BagOf}.
 *
 * <p>The factories take plain objects, and throw an IllegalArgumentException for one that is no
 * value, or is beyond a limit of docs/FORMATS.md.
 */
public sealed interface Value permits Element, Value.SetOf, Value.BagOf {
    /** The greatest count or amount. */
    long MAX_COUNT = 4_294_967_295L;

    /** A set, whose elements are kept in ascending order. */
    record SetOf(Set<Element> elements) implements Value {
        /** Copies the elements. */
        public SetOf {
            SortedSet<Element> copy = new TreeSet<>(Elements.ORDER);
            copy.addAll(Texts.Copies.of(elements, "elements"));
            elements = Collections.unmodifiableSortedSet(copy);
        }

        @Override
        public String toString() {
            return "set " + Texts.Words.braced(elements);
        }
    }

    /** A bag: how often each element is there, 1 to 4294967295 times, in ascending order. */
    record BagOf(Map<Element, Long> counts) implements Value {
        /** Copies the counts, if they are in range. */
        public BagOf {
            SortedMap<Element, Long> copy = new TreeMap<>(Elements.ORDER);
            Objects.requireNonNull(counts, "counts")
                    .forEach((element, count) -> copy.put(element, inRange(count)));
            counts = Collections.unmodifiableSortedMap(copy);
        }

        /** Returns how often the element is there; 0 if it isn't. */
        public long count(Element element) {
            return counts.getOrDefault(element, 0L);
        }

        @Override
        public String toString() {
            return "bag " + Texts.Words.counted(counts);
        }

        /** Returns the count or the amount, if it is in range. */
        static long inRange(long count) {
            if (count < 1 || count > MAX_COUNT)
                throw new IllegalArgumentException(
                        "an amount or a count is 1 to 4294967295, and not " + count);
            return count;
        }
    }

    /**
     * Returns the value of an object.
     *
     * <p>A java.util.Set becomes a set of its elements. A Map becomes a bag, in which each key is
     * as often as its Integer or Long says. Another object becomes the element {@link Element#of}.
     *
     * @throws IllegalArgumentException for what is no value; if an element occurs twice; for a
     *         count that isn't 1 to 4294967295; or as Element.of
     */
    static Value of(Object value) {
        if (value instanceof Value made)
            return made;
        if (value instanceof Set<?> elements)
            return setOf(elements);
        if (value instanceof Map<?, ?> counts)
            return bag(counts);
        return Element.of(value);
    }

    /** Returns undef, the value of an empty location. */
    static Element undef() {
        return Element.undef();
    }

    /**
     * Returns a list of these, each an element as {@link Element#of} takes it.
     *
     * @throws IllegalArgumentException as Element.of
     */
    static Element list(Object... items) {
        return Element.list(items);
    }

    /**
     * Returns a set of these, each an element as {@link Element#of} takes it.
     *
     * @throws IllegalArgumentException if an element occurs twice, or as Element.of
     */
    static Value set(Object... elements) {
        return setOf(Elements.each(elements, "elements"));
    }

    private static Value setOf(Collection<?> elements) {
        SortedSet<Element> copy = new TreeSet<>(Elements.ORDER);
        for (Object element : elements)
            if (!copy.add(Element.of(element)))
                throw Texts.Words.isTwice("set", element);
        return new SetOf(copy);
    }

    /**
     * Returns a bag, in which each key is as often as its Integer or Long says.
     *
     * <p>A key is an element as {@link Element#of} takes it.
     *
     * @throws IllegalArgumentException for a count that isn't 1 to 4294967295 or no such object; if
     *         an element occurs twice, as 1 and 1L are one; or as Element.of
     */
    static Value bag(Map<?, ?> counts) {
        SortedMap<Element, Long> copy = new TreeMap<>(Elements.ORDER);
        counts.forEach((key, count) -> {
            if (!(count instanceof Integer || count instanceof Long))
                throw new IllegalArgumentException("a count is an Integer or a Long: " + count);
            if (copy.put(Element.of(key), ((Number) count).longValue()) != null)
                throw Texts.Words.isTwice("bag", key);
        });
        return new BagOf(copy);
    }

    /**
     * Returns the value of a text.
     *
     * @throws IllegalArgumentException if it is none
     */
    static Value parse(String text) {
        return JsonReader.parsed(text, "value", JsonReader::value);
    }

    /** Returns its text, as the storage writes it. */
    default String json() {
        return JsonWriter.text(this);
    }

    /** Returns whether it is undef, as an empty location is. */
    default boolean isUndef() {
        return this instanceof Element.Undef;
    }

    /**
     * Returns its number.
     *
     * @throws IllegalStateException if it is something else, as of each of these calls
     */
    default long asLong() {
        if (this instanceof Element.Num num)
            return num.value();
        throw Texts.Words.isNo("number", this);
    }

    /** Returns its number, or the other one if it is undef. */
    default long asLong(long otherwise) {
        return isUndef() ? otherwise : asLong();
    }

    /** Returns its text, without quotes. */
    default String asText() {
        if (this instanceof Element.Text text)
            return text.value();
        throw Texts.Words.isNo("text", this);
    }

    /** Returns its truth. */
    default boolean asBoolean() {
        if (this instanceof Element.Bool bool)
            return bool.value();
        throw Texts.Words.isNo("boolean", this);
    }

    /** Returns the items of the list. */
    default List<Element> asList() {
        if (this instanceof Element.ListOf list)
            return list.items();
        throw Texts.Words.isNo("list", this);
    }

    /** Returns the elements of the set, in ascending order. */
    default Set<Element> asSet() {
        if (this instanceof SetOf set)
            return set.elements();
        throw Texts.Words.isNo("set", this);
    }

    /**
     * Returns whether the set or the bag has the element.
     *
     * <p>It is as {@link Element#of} takes it. The set that asSet returns has Elements, and throws
     * a ClassCastException if it is asked for an Integer.
     *
     * @throws IllegalArgumentException as Element.of
     */
    default boolean has(Object element) {
        if (this instanceof SetOf set)
            return set.elements().contains(Element.of(element));
        if (this instanceof BagOf bag)
            return bag.counts().containsKey(Element.of(element));
        throw Texts.Words.isNo("set or bag", this);
    }

    /** Returns the elements of the bag with their counts, in ascending order. */
    default Map<Element, Long> asBag() {
        if (this instanceof BagOf bag)
            return bag.counts();
        throw Texts.Words.isNo("bag", this);
    }
}
