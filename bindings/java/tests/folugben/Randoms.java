package folugben;

import java.util.ArrayList;
import java.util.HashMap;
import java.util.HashSet;
import java.util.List;
import java.util.Map;
import java.util.Random;
import java.util.TreeMap;
import java.util.function.Supplier;

/** Random values, locations and instructions for the tests, often equal and near the limits. */
final class Randoms {
    private static final long[] NUMBERS = {0, 1, -1, 7, Long.MAX_VALUE, Long.MIN_VALUE,
            Long.MAX_VALUE - 1, 1_000_000_000_000_000_000L, 1L << 53, (1L << 53) + 1};
    private static final long[] COUNTS = {1, 2, 3, 4_294_967_294L, Value.MAX_COUNT};
    private static final int[] POINTS = {0, 7, '\n', 0x1f, ' ', '"', '/', '\\', 'a', 0x7f, 0xe4,
            0x2028, 0xd7ff, 0xe000, 0xffff, 0x10000, 0x1f600, 0x10ffff};

    private final Random random;

    Randoms(long seed) {
        random = new Random(seed);
    }

    int below(int bound) {
        return random.nextInt(bound);
    }

    private <T> List<T> several(int most, Supplier<T> one) {
        List<T> all = new ArrayList<>();
        for (int left = below(most + 1); left > 0; left--) all.add(one.get());
        return all;
    }

    private long number() {
        return below(3) == 0 ? random.nextLong() : NUMBERS[below(NUMBERS.length)];
    }

    private long count() {
        return COUNTS[below(COUNTS.length)];
    }

    private String text() {
        StringBuilder text = new StringBuilder();
        several(4, () -> POINTS[below(POINTS.length)]).forEach(text::appendCodePoint);
        return text.toString();
    }

    Element element() {
        return element(Element.MAX_DEPTH);
    }

    /** An element of at most this depth. */
    private Element element(int depth) {
        return switch (below(depth > 0 ? 6 : 5)) {
            case 0 -> Element.undef();
            case 1 -> Element.of(random.nextBoolean());
            case 2, 3 -> Element.of(number());
            case 4 -> Element.of(text());
            default -> new Element.ListOf(several(3, () -> element(depth - 1)));
        };
    }

    Value value() {
        return value(below(4));
    }

    /** A set, a bag, a number or an element. */
    private Value value(int kind) {
        switch (kind) {
            case 0:
                return new Value.SetOf(new HashSet<>(several(6, this::element)));
            case 1:
                Map<Element, Long> counts = new HashMap<>();
                several(6, this::element).forEach(element -> counts.put(element, count()));
                return new Value.BagOf(counts);
            case 2:
                return Element.of(number());
            default:
                return element();
        }
    }

    /** One of many locations. */
    Location anyLocation() {
        String name = below(9) == 0 ? "_".repeat(Location.MAX_NAME) : "f" + below(3);
        return new Location(name, several(below(9) == 0 ? 8 : 2, this::element));
    }

    /** One of four locations, more often than not the one for values of this kind. */
    private Location location(int kind) {
        return Location.of("x", below(5) == 0 ? below(4) : kind);
    }

    Instruction instruction() {
        int kind = below(4);
        return switch (below(8)) {
            case 0, 1 -> Instruction.put(location(kind), value(kind));
            case 2 -> Instruction.add(location(0), element());
            case 3 -> Instruction.remove(location(0), element());
            case 4, 5 -> Instruction.bagAdd(location(1), element(), count());
            case 6 -> Instruction.bagRemove(location(1), element(), count());
            default -> Instruction.inc(location(2), number());
        };
    }

    List<Instruction> move() {
        return several(3, this::instruction);
    }

    /** A state without empty locations. */
    Map<Location, Value> state() {
        Map<Location, Value> state = new TreeMap<>();
        several(12, this::anyLocation).forEach(at -> state.put(at, value()));
        for (int kind = 0; kind < 4; kind++) state.put(location(kind), value(kind));
        state.values().removeIf(Value::isUndef);
        return state;
    }
}
