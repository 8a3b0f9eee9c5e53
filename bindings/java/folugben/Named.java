package folugben;

import java.util.Objects;

/**
 * A location with the number of moves after which it was read.
 *
 * <p>A move that names it is fired only if it wasn't written since.
 */
public record Named(Location location, long number) {
    /** Takes both, if the number is 0 or more. */
    public Named {
        Objects.requireNonNull(location, "location");
        if (number < 0)
            throw new IllegalArgumentException("a number of moves is 0 or more, and not " + number);
    }

    /** Returns the same at a number that counts the given number of moves more. */
    Named plus(long before) {
        return before == 0 ? this : new Named(location, number + before);
    }

    @Override
    public String toString() {
        return location + " at " + number;
    }
}
