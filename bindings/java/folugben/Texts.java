package folugben;

import java.nio.charset.StandardCharsets;
import java.util.Arrays;
import java.util.Collection;
import java.util.List;
import java.util.Map;
import java.util.Objects;
import java.util.stream.Collectors;

/** Checks of a caller's texts before the library gets them. */
final class Texts {
    private Texts() {}

    /** Returns the line with this number, from 1 up, without its line feed. */
    static byte[] line(byte[] text, long number) {
        int begin = 0;
        for (long left = number; left > 1; left--) begin = lineEnd(text, begin) + 1;
        return Arrays.copyOfRange(text, begin, lineEnd(text, begin));
    }

    private static int lineEnd(byte[] text, int at) {
        while (at < text.length && text[at] != '\n') at++;
        return at;
    }

    /** Returns the text in UTF-8; an exception names an argument that is null or has none. */
    static byte[] utf8(String text, String name) {
        try {
            return unicode(text, name).getBytes(StandardCharsets.UTF_8);
        } catch (NegativeArraySizeException error) {
            // getBytes of some versions asks at first for three bytes for each char.
            throw new IllegalArgumentException(
                    name + " is too long: " + text.length() + " chars", error);
        }
    }

    /**
     * Returns the text, if it has no lone surrogate.
     *
     * <p>In place of one getBytes would put a question mark.
     */
    static String unicode(String text, String name) {
        Objects.requireNonNull(text, name);
        for (int at = 0; at < text.length(); at++) {
            if (!Character.isSurrogate(text.charAt(at)))
                continue;
            if (!Character.isSupplementaryCodePoint(text.codePointAt(at)))
                throw new IllegalArgumentException(name + " has a lone surrogate at index " + at);
            at++;
        }
        return text;
    }

    /**
     * Returns the text, if by its brackets and strings it is one value of JSON.
     *
     * <p>So it is that value within a longer text too. Other faults of its JSON are found by the
     * library.
     */
    static String oneValue(String text, String name) {
        int end = afterValue(text, afterSpace(unicode(text, name), 0));
        if (end < 0 || afterSpace(text, end) < text.length())
            throw FolugbenException.notJson(name);
        return text;
    }

    /** Returns how deep brackets are nested in a text, outside of strings. */
    static int depth(String text) {
        int deepest = 0;
        int depth = 0;
        for (int at = 0; at >= 0 && at < text.length();)
            switch (text.charAt(at)) {
                case '"' -> at = afterString(text, at);
                case '[', '{' -> {
                    deepest = Math.max(deepest, ++depth);
                    at++;
                }
                case ']', '}' -> {
                    depth--;
                    at++;
                }
                default -> at++;
            }
        return deepest;
    }

    private static int afterSpace(String text, int at) {
        while (at < text.length() && " \t\n\r".indexOf(text.charAt(at)) >= 0) at++;
        return at;
    }

    /** Returns the index after the value that begins here; -1 if none begins here, or ends. */
    private static int afterValue(String text, int at) {
        int depth = 0;
        do {
            if (at >= text.length())
                return -1;
            switch (text.charAt(at)) {
                case '"' -> at = afterString(text, at);
                case '[', '{' -> {
                    depth++;
                    at++;
                }
                case ']', '}' -> {
                    depth--;
                    at++;
                }
                default -> at = depth > 0 ? at + 1 : afterWord(text, at);
            }
        } while (at >= 0 && depth > 0);
        return depth < 0 ? -1 : at;
    }

    private static int afterString(String text, int at) {
        for (at++; at < text.length(); at++) {
            char unit = text.charAt(at);
            if (unit == '"')
                return at + 1;
            if (unit == '\\')
                at++;
        }
        return -1;
    }

    /**
     * Returns the index after a number, true, false or null.
     *
     * <p>That is up to a space or a sign that separates values.
     */
    private static int afterWord(String text, int at) {
        int end = at;
        while (end < text.length() && " \t\n\r,:[]{}\"".indexOf(text.charAt(end)) < 0) end++;
        return end > at ? end : -1;
    }

    /** How objects are printed. */
    static final class Words {
        private Words() {}

        static String listed(String before, Collection<?> items, String behind) {
            return items.stream()
                    .map(Object::toString)
                    .collect(Collectors.joining(", ", before, behind));
        }

        static String braced(Collection<?> items) {
            return listed("{", items, "}");
        }

        static String counted(Map<Element, Long> counts) {
            return counts.entrySet()
                    .stream()
                    .map(entry -> entry.getKey() + ": " + entry.getValue())
                    .collect(Collectors.joining(", ", "{", "}"));
        }

        static IllegalStateException isNo(String kind, Value value) {
            return new IllegalStateException("no " + kind + ": " + value);
        }

        static IllegalArgumentException isTwice(String kind, Object element) {
            return new IllegalArgumentException(
                    "an element stands twice in a " + kind + ": " + element);
        }

        static IllegalArgumentException isTooDeep() {
            return new IllegalArgumentException("lists nest at most " + Element.MAX_DEPTH + " deep");
        }
    }

    /** Copies of arguments: a collection may be changed by others while it is read. */
    static final class Copies {
        private Copies() {}

        /**
         * Returns the items of the collection, which is asked once for all of it.
         *
         * @throws NullPointerException which names the argument, and which item of it is null
         */
        @SuppressWarnings("unchecked")
        static <T> List<T> of(Collection<? extends T> items, String name) {
            Object[] copy = Objects.requireNonNull(items, name).toArray();
            for (int at = 0; at < copy.length; at++)
                if (copy[at] == null)
                    throw new NullPointerException(name + "[" + at + "] is null");
            return (List<T>) List.of(copy);
        }
    }
}
