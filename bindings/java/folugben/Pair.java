package folugben;

import java.util.Objects;

/** A location and its value; a state has one for each location that isn't empty. */
public record Pair(Location location, Value value) {
    /** Takes both, neither of which is null. */
    public Pair {
        Objects.requireNonNull(location, "location");
        Objects.requireNonNull(value, "value");
    }

    /**
     * Returns a location and its value, as {@link Value#of} takes it.
     *
     * @throws IllegalArgumentException as Value.of
     */
    public static Pair of(Location location, Object value) {
        return new Pair(location, Value.of(value));
    }

    @Override
    public String toString() {
        return location + " = " + value;
    }
}
