package folugben;

import java.util.Objects;

/**
 * A function's name with the number of moves after which it was scanned.
 *
 * <p>A scan covers all its locations, with and without a value. A move that depends on it is fired
 * only if none of them was written since.
 */
public record Scanned(String name, long number) {
    /** Takes both, if the number is 0 or more. */
    public Scanned {
        Objects.requireNonNull(name, "name");
        if (number < 0)
            throw new IllegalArgumentException("a number of moves is 0 or more, and not " + number);
    }

    @Override
    public String toString() {
        return name + " at " + number;
    }
}
