package folugben;

import java.util.List;

/** The values of locations, in the order in which these were passed, at a version. */
public record Reading(long number, List<Location> locations, List<Value> values) {
    /** Copies of both, which are of one length. */
    public Reading {
        locations = Texts.Copies.of(locations, "locations");
        values = Texts.Copies.of(values, "values");
        if (locations.size() != values.size())
            throw new IllegalArgumentException(
                    locations.size() + " locations have " + values.size() + " values");
    }

    /**
     * The value of the location.
     *
     * @throws IllegalArgumentException if it wasn't read
     */
    public Value value(Location location) {
        int at = locations.indexOf(location);
        if (at < 0)
            throw new IllegalArgumentException("not read: " + location);
        return values.get(at);
    }

    /** The same at a number that counts the given number of moves more. */
    Reading plus(long before) {
        return before == 0 ? this : new Reading(number + before, locations, values);
    }

    /** Returns the locations with the number: the reads of a fire that depends on all of them. */
    public List<Named> named() {
        return locations.stream().map(location -> new Named(location, number)).toList();
    }
}
