package folugben;

import java.util.Arrays;
import java.util.List;
import java.util.Objects;

/**
 * A plain value: undef, a boolean, an integer, a text or a list of such.
 *
 * <p>Arguments of locations, items of lists, and members of sets and bags are elements.
 *
 * <p>Elements ascend as in a journal: undef, false, true, numbers by value, texts by their bytes in
 * UTF-8, lists, a shorter one before a longer one and of equal length by their items.
 */
public sealed interface Element extends Value, Comparable<Element> {
    /** The most items of a list. */
    int MAX_ITEMS = 4096;

    /** The greatest depth of a list. */
    int MAX_DEPTH = 8;

    /** No value: JSON's null. All are equal. */
    record Undef() implements Element {
        @Override
        public String toString() {
            return "undef";
        }
    }

    /** True or false. */
    record Bool(boolean value) implements Element {
        @Override
        public String toString() {
            return "" + value;
        }
    }

    /** An integer of 64 bits. */
    record Num(long value) implements Element {
        @Override
        public String toString() {
            return "" + value;
        }
    }

    /** A text, without lone surrogates. */
    record Text(String value) implements Element {
        /** Takes the text, if it is Unicode. */
        public Text {
            Texts.unicode(value, "a text");
        }

        @Override
        public String toString() {
            return json();
        }
    }

    /** A list of at most 4,096 items, which is at most 8 deep. */
    record ListOf(List<Element> items) implements Element {
        /** Copies the items, if they are within the limits. */
        public ListOf {
            items = Texts.Copies.of(items, "items");
            if (items.size() > MAX_ITEMS)
                throw new IllegalArgumentException(
                        "a list of " + items.size() + " items, at most " + MAX_ITEMS);
            if (deepest(items) >= MAX_DEPTH)
                throw Texts.Words.isTooDeep();
        }

        private static int deepest(List<Element> items) {
            int deepest = 0;
            for (Element item : items) deepest = Math.max(deepest, item.depth());
            return deepest;
        }

        @Override
        public int depth() {
            return 1 + deepest(items);
        }

        @Override
        public String toString() {
            return items.toString();
        }
    }

    /** Returns 0; of a list 1 more than the greatest depth of its items. */
    default int depth() {
        return 0;
    }

    /** Returns the value of an empty location. */
    static Element undef() {
        return new Undef();
    }

    /**
     * Returns the element of an object.
     *
     * <p>A null becomes {@link #undef}, a Boolean a truth, a Byte, Short, Integer or Long a number,
     * a String a text, and a List a list of its items, to which the same applies.
     *
     * @throws IllegalArgumentException for what is no element, such as a set or a double; for a
     *         text with a lone surrogate; for a list of more than 4,096 items, or more than 8 deep
     */
    static Element of(Object value) {
        return Elements.of(value, 0);
    }

    /**
     * Returns a list of these, each an element as {@link #of} takes it.
     *
     * @throws IllegalArgumentException as of
     */
    static Element list(Object... items) {
        return of(Arrays.asList(Objects.requireNonNull(items, "items")));
    }

    @Override
    default int compareTo(Element other) {
        return Elements.compare(this, other);
    }
}
