package folugben;

import com.fasterxml.jackson.core.JsonToken;

import java.io.IOException;
import java.io.UncheckedIOException;
import java.util.ArrayList;
import java.util.Collections;
import java.util.Iterator;
import java.util.List;
import java.util.Map;
import java.util.NoSuchElementException;
import java.util.Objects;
import java.util.SortedMap;
import java.util.TreeMap;
import java.util.TreeSet;
import java.util.stream.Collectors;
import java.util.stream.Stream;
import java.util.stream.StreamSupport;

/** Reads journals: the states of a run, move by move, also for tools, and a table. */
public final class Journals {
    private static final List<String> HEAD =
            List.of("move", "agent", "function", "arguments", "old", "new");

    private Journals() {}

    /** The values of the locations that have one, after the given number of moves. */
    public record Moment(long number, SortedMap<Location, Value> values) {
        /** Makes the values unmodifiable. */
        public Moment {
            values = Collections.unmodifiableSortedMap(new TreeMap<>(values));
        }
    }

    /**
     * Returns the states of a journal, the opening state first, as number 0.
     *
     * @throws FolugbenException if it is no journal
     */
    public static Stream<Moment> states(String journal) {
        Trace trace = new Trace(journal);
        Iterable<Moment> moments = () -> new Moments(trace);
        return StreamSupport.stream(moments.spliterator(), false);
    }

    /** The moments of a trace. */
    private static final class Moments implements Iterator<Moment> {
        private final Trace trace;
        private Moment next;

        Moments(Trace trace) {
            this.trace = trace;
            next = new Moment(0, trace.init);
        }

        @Override
        public boolean hasNext() {
            return next != null;
        }

        @Override
        public Moment next() {
            if (next == null)
                throw new NoSuchElementException("no further state");
            Moment moment = next;
            Trace.Move move = trace.next();
            if (move == null) {
                next = null;
                return moment;
            }
            SortedMap<Location, Value> values = new TreeMap<>(moment.values());
            for (Trace.Change change : move.changes()) {
                Value now = change.on(values.get(change.location()));
                if (now.isUndef())
                    values.remove(change.location());
                else
                    values.put(change.location(), now);
            }
            next = new Moment(moment.number() + 1, values);
            return moment;
        }
    }

    /**
     * Writes a table of a journal, with a row for each change of each move.
     *
     * <p>A row has the move's number, its agent, the function, its arguments, and the old and the
     * new value as JSON. Of a set or a bag that stays one, the new value is what changes, as in a
     * trace, and the old one is left out. The opening state comes first, as move 0 of no agent.
     *
     * @throws FolugbenException if it is no journal
     * @throws UncheckedIOException if it can't be written
     */
    public static void writeCsv(String journal, Appendable out) {
        Trace trace = new Trace(journal);
        Objects.requireNonNull(out, "out");
        row(out, HEAD);
        trace.init.forEach((at, value) -> row(out, cells(0, "", at, "null", value.json())));
        long number = 0;
        for (Trace.Move move; (move = trace.next()) != null;) {
            number++;
            for (Trace.Change it : move.changes())
                row(out, cells(number, "" + move.agent(), it.location(), it.before(), it.text()));
        }
    }

    /**
     * Writes all states of a journal in the Informal Trace Format.
     *
     * <p>It is the format of Apalache and Quint.
     *
     * @throws TooLongException if the states have more than 1,073,741,824 characters
     * @throws FolugbenException if it is no journal; nothing is written
     * @throws UncheckedIOException if it can't be written
     */
    public static void writeItf(String journal, Appendable out) {
        writeItf(journal, out, "", 0, Long.MAX_VALUE);
    }

    /**
     * Writes the states from the first to the last one in the Informal Trace Format.
     *
     * <p>Its meta data name the source, which may be empty. State 0 is the opening state, and state
     * n that after move n. In a state each function is a map from the tuples of its arguments to
     * its values. Each state is complete, as the format has no other, so the output grows with the
     * moves times the size of the state.
     *
     * @throws TooLongException if these states have more than 1,073,741,824 characters; those that
     *         come before the limit are written
     * @throws IllegalArgumentException if the source has a lone surrogate
     * @throws FolugbenException if it is no journal; nothing is written
     * @throws UncheckedIOException if it can't be written
     */
    public static void writeItf(
            String journal, Appendable out, String source, long first, long last) {
        List<String> trace = Storage.trace(journal);
        Objects.requireNonNull(out, "out");
        ItfWriter.write(trace, out, Texts.unicode(source, "source"), first, last, ItfWriter.LIMIT);
    }

    private static List<String> cells(long move, String agent, Location at, String old, String now) {
        String arguments = JsonWriter.elements(at.arguments());
        List<String> cells = new ArrayList<>(List.of("" + move, agent, at.name()));
        // JSON without a semicolon, at which some tables part cells; it is only in texts.
        for (String text : List.of(arguments, old, now)) cells.add(text.replace(";", "\\u003b"));
        return cells;
    }

    private static void row(Appendable out, List<String> cells) {
        List<String> quoted = new ArrayList<>();
        for (String cell : cells)
            quoted.add(cell.matches("(?s).*[,\"\r\n].*") ? '"' + cell.replace("\"", "\"\"") + '"'
                                                         : cell);
        try {
            out.append(String.join(",", quoted)).append('\n');
        } catch (IOException fault) {
            throw new UncheckedIOException(fault);
        }
    }

    /** The moves of a journal with the changes of each, as in its trace. */
    static final class Trace {
        private final Iterator<String> lines;
        /** The locations that have a value in the state that it opens with. */
        final SortedMap<Location, Value> init = new TreeMap<>();

        /**
         * Reads the trace of a journal.
         *
         * @throws FolugbenException if it is none
         */
        Trace(String journal) {
            this(Storage.trace(journal));
        }

        /** Reads the trace of these lines. */
        Trace(List<String> trace) {
            lines = trace.iterator();
            JsonReader.members(lines.next(), "header", (name, reader) -> {
                if (name.equals("init"))
                    reader.list(JsonReader::pair).forEach(it -> init.put(it.location(), it.value()));
            });
            init.values().removeIf(Value::isUndef);
        }

        /** A move: the number of its agent, and what it changes. */
        record Move(long agent, List<Change> changes) {}

        /** Returns the next move; null after the last. */
        Move next() {
            while (lines.hasNext()) {
                long[] agent = new long[1];
                List<Change> changes = new ArrayList<>();
                boolean[] isMove = new boolean[1];
                JsonReader.members(lines.next(), "event", (name, reader) -> {
                    if (name.equals("agent"))
                        agent[0] = reader.number();
                    if (name.equals("updates")) {
                        isMove[0] = true;
                        changes.addAll(reader.list(Trace::change));
                    }
                });
                if (isMove[0])
                    return new Move(agent[0], changes);
            }
            return null;
        }

        /** A change of a location by a move. */
        sealed interface Change {
            /** Returns the location. */
            Location location();

            /** Returns the value that it leaves if this one was there, null for none. */
            Value on(Value there);

            /** Returns the value before it, as a table has it. */
            default String before() {
                return "";
            }

            /** Returns what it leaves, or how that differs, as a table has it. */
            String text();
        }

        record Other(Location location, Value old, Value now) implements Change {
            @Override
            public Value on(Value there) {
                return now;
            }

            @Override
            public String before() {
                return old.json();
            }

            @Override
            public String text() {
                return now.json();
            }
        }

        record OfSet(Location location, List<Element> added, List<Element> removed)
                implements Change {
            @Override
            public Value on(Value there) {
                TreeSet<Element> set = new TreeSet<>(there.asSet());
                removed.forEach(set::remove);
                set.addAll(added);
                return Value.set(set.toArray());
            }

            @Override
            public String text() {
                return "{\"added\":" + JsonWriter.elements(added) + ",\"removed\":"
                        + JsonWriter.elements(removed) + "}";
            }
        }

        /** How often a bag has an element, before and afterwards. */
        record Count(Element element, long old, long now) {
            private String text() {
                return "[" + element.json() + "," + old + "," + now + "]";
            }
        }

        record OfBag(Location location, List<Count> counts) implements Change {
            @Override
            public Value on(Value there) {
                Map<Element, Long> bag = new TreeMap<>(there.asBag());
                for (Count it : counts)
                    if (it.now == 0)
                        bag.remove(it.element);
                    else
                        bag.put(it.element, it.now);
                return Value.bag(bag);
            }

            @Override
            public String text() {
                return counts.stream().map(Count::text).collect(
                        Collectors.joining(",", "{\"counts\":[", "]}"));
            }
        }

        private static Change change(JsonReader reader) throws IOException {
            reader.begin(JsonToken.START_ARRAY, "no change");
            Location location = reader.location();
            Change change;
            if (reader.next() == JsonToken.START_OBJECT) {
                String key = reader.key();
                change = switch (key) {
                    case "added" -> ofSet(location, reader);
                    case "counts" -> ofBag(location, reader);
                    default -> other(location, reader.valueOf(key), reader);
                };
            } else {
                change = other(location, reader.value(), reader);
            }
            reader.end(JsonToken.END_ARRAY);
            return change;
        }

        private static Change other(Location location, Value old, JsonReader reader) throws IOException {
            reader.next();
            return new Other(location, old, reader.value());
        }

        private static Change ofSet(Location location, JsonReader reader) throws IOException {
            List<Element> added = reader.list(JsonReader::element);
            reader.nextKey("removed");
            List<Element> removed = reader.list(JsonReader::element);
            reader.end(JsonToken.END_OBJECT);
            return new OfSet(location, added, removed);
        }

        private static Change ofBag(Location location, JsonReader reader) throws IOException {
            List<Count> counts = reader.list(Trace::count);
            reader.end(JsonToken.END_OBJECT);
            return new OfBag(location, counts);
        }

        private static Count count(JsonReader reader) throws IOException {
            reader.begin(JsonToken.START_ARRAY, "no count");
            Element element = reader.element();
            reader.next();
            long old = reader.number();
            reader.next();
            long now = reader.number();
            reader.end(JsonToken.END_ARRAY);
            return new Count(element, old, now);
        }
    }
}
