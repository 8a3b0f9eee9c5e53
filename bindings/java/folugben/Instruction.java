package folugben;

import java.util.Objects;

/**
 * An update instruction: an update, or a partial one of a set, a bag or a number.
 *
 * <p>Instructions are immutable and equal by content.
 */
public sealed interface Instruction {
    /** Returns the location that it updates. */
    Location location();

    /** Puts a value. */
    record Put(Location location, Value value) implements Instruction {
        /** Takes its parts, none of which is null. */
        public Put {
            Objects.requireNonNull(location, "location");
            Objects.requireNonNull(value, "value");
        }

        @Override
        public String toString() {
            return "put " + location + " " + value;
        }
    }

    /** Adds an element to a set. */
    record Add(Location location, Element element) implements Instruction {
        /** Takes its parts, none of which is null. */
        public Add {
            Objects.requireNonNull(location, "location");
            Objects.requireNonNull(element, "element");
        }

        @Override
        public String toString() {
            return "add " + location + " " + element;
        }
    }

    /** Removes an element from a set. */
    record Remove(Location location, Element element) implements Instruction {
        /** Takes its parts, none of which is null. */
        public Remove {
            Objects.requireNonNull(location, "location");
            Objects.requireNonNull(element, "element");
        }

        @Override
        public String toString() {
            return "remove " + location + " " + element;
        }
    }

    /** Adds an element to a bag, 1 to 4294967295 times. */
    record BagAdd(Location location, Element element, long amount) implements Instruction {
        /** Takes its parts, none of which is null, if the amount is in range. */
        public BagAdd {
            Objects.requireNonNull(location, "location");
            Objects.requireNonNull(element, "element");
            Value.BagOf.inRange(amount);
        }

        @Override
        public String toString() {
            return "bagadd " + location + " " + element + " " + amount;
        }
    }

    /** Removes an element from a bag, 1 to 4294967295 times. */
    record BagRemove(Location location, Element element, long amount) implements Instruction {
        /** Takes its parts, none of which is null, if the amount is in range. */
        public BagRemove {
            Objects.requireNonNull(location, "location");
            Objects.requireNonNull(element, "element");
            Value.BagOf.inRange(amount);
        }

        @Override
        public String toString() {
            return "bagremove " + location + " " + element + " " + amount;
        }
    }

    /** Adds a number, which may be 0 or less, to a number. */
    record Inc(Location location, long by) implements Instruction {
        /** Takes its parts, none of which is null. */
        public Inc {
            Objects.requireNonNull(location, "location");
        }

        @Override
        public String toString() {
            return "inc " + location + " " + by;
        }
    }

    /**
     * Returns one that puts a value, as {@link Value#of} takes it.
     *
     * <p>A null leaves the location empty.
     *
     * @throws IllegalArgumentException as Value.of
     */
    static Instruction put(Location location, Object value) {
        return new Put(location, Value.of(value));
    }

    /**
     * Returns one that adds an element, as {@link Element#of} takes it, to a set.
     *
     * @throws IllegalArgumentException as Element.of
     */
    static Instruction add(Location location, Object element) {
        return new Add(location, Element.of(element));
    }

    /**
     * Returns one that removes an element from a set.
     *
     * <p>The element is as {@link Element#of} takes it.
     *
     * @throws IllegalArgumentException as Element.of
     */
    static Instruction remove(Location location, Object element) {
        return new Remove(location, Element.of(element));
    }

    /**
     * Returns one that adds an element to a bag the given number of times.
     *
     * <p>The element is as {@link Element#of} takes it.
     *
     * @throws IllegalArgumentException for an amount that isn't 1 to 4294967295, or as Element.of
     */
    static Instruction bagAdd(Location location, Object element, long amount) {
        return new BagAdd(location, Element.of(element), amount);
    }

    /**
     * Returns one that removes an element from a bag the given number of times.
     *
     * <p>The element is as {@link Element#of} takes it.
     *
     * @throws IllegalArgumentException for an amount that isn't 1 to 4294967295, or as Element.of
     */
    static Instruction bagRemove(Location location, Object element, long amount) {
        return new BagRemove(location, Element.of(element), amount);
    }

    /** Returns one that adds a number to a number. */
    static Instruction inc(Location location, long by) {
        return new Inc(location, by);
    }

    /**
     * Returns the instruction of a text.
     *
     * @throws IllegalArgumentException if it is none
     */
    static Instruction parse(String text) {
        return JsonReader.parsed(text, "instruction", JsonReader::instruction);
    }

    /** Returns its text, as the storage writes it. */
    default String json() {
        return JsonWriter.text(this);
    }
}
