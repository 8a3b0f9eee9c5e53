package folugben;

import java.util.List;
import java.util.Objects;

/**
 * A location: the name of a function and at most 8 arguments.
 *
 * <p>The name has 1 to 64 ASCII letters, digits and _, and begins with no digit. Locations are
 * immutable and equal by content; they ascend by name, then by the number of arguments, then by the
 * arguments from left to right.
 */
public record Location(String name, List<Element> arguments) implements Comparable<Location> {
    /** The most characters of a name. */
    public static final int MAX_NAME = 64;

    /** The most arguments. */
    public static final int MAX_ARGUMENTS = 8;

    /** Copies the arguments, if they and the name are within the limits. */
    public Location {
        Objects.requireNonNull(name, "name");
        if (!isName(name))
            throw new IllegalArgumentException("a name has 1 to " + MAX_NAME
                    + " letters, digits and _, and begins with no digit");
        arguments = Texts.Copies.of(arguments, "arguments");
        if (arguments.size() > MAX_ARGUMENTS)
            throw new IllegalArgumentException(
                    arguments.size() + " arguments, at most " + MAX_ARGUMENTS);
    }

    /**
     * Returns the location of these arguments, as {@link Element#of} takes each.
     *
     * @throws IllegalArgumentException for a name that is none, more than 8 arguments, or as
     *         Element.of
     */
    public static Location of(String name, Object... arguments) {
        return new Location(name, Elements.each(arguments, "arguments"));
    }

    /**
     * Returns the location of a text.
     *
     * @throws IllegalArgumentException if it is none
     */
    public static Location parse(String text) {
        return JsonReader.parsed(text, "location", JsonReader::location);
    }

    /** Prepares it for calls that neither write its text nor read it. */
    public PreparedLocation prepare() {
        return new PreparedLocation(json());
    }

    /** Returns its text, as the storage writes it. */
    public String json() {
        return JsonWriter.text(this);
    }

    private static boolean isName(String name) {
        return !name.isEmpty() && name.length() <= MAX_NAME && !isDigit(name.charAt(0))
                && name.chars().allMatch(unit -> isLetter(unit) || isDigit(unit));
    }

    private static boolean isDigit(int unit) {
        return unit >= '0' && unit <= '9';
    }

    private static boolean isLetter(int unit) {
        return unit >= 'a' && unit <= 'z' || unit >= 'A' && unit <= 'Z' || unit == '_';
    }

    @Override
    public int compareTo(Location other) {
        int order = name.compareTo(other.name);
        return order != 0 ? order : Elements.compare(arguments, other.arguments);
    }

    /** Returns a text such as x, or account(1, "a"). */
    @Override
    public String toString() {
        return arguments.isEmpty() ? name : name + Texts.Words.listed("(", arguments, ")");
    }
}
