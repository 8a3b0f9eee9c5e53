package folugben;

import java.io.IOException;
import java.io.UncheckedIOException;
import java.util.ArrayList;
import java.util.LinkedHashMap;
import java.util.List;
import java.util.Locale;
import java.util.Map;
import java.util.TreeMap;
import java.util.stream.Collectors;

/** Writes the states of a journal in the Informal Trace Format, text for text as Python does. */
final class ItfWriter {
    /** How many characters the states may have. */
    static final long LIMIT = 1L << 30;

    private static final String PAGE = "https://apalache-mc.org/docs/adr/015adr-trace.html";

    private final Appendable out;
    private final long first;
    private final long last;
    private final long limit;
    /** The values of each function's locations; a written location goes to the end. */
    private final Map<String, Map<Location, Cell>> held = new TreeMap<>();
    private long written;

    private ItfWriter(Appendable out, long first, long last, long limit) {
        this.out = out;
        this.first = first;
        this.last = last;
        this.limit = limit;
    }

    /** Writes those states of a trace whose numbers are in this range. */
    static void write(List<String> trace, Appendable out, String source, long first, long last,
            long limit) {
        ItfWriter writer = new ItfWriter(out, first, last, limit);
        writer.nameFunctions(new Journals.Trace(trace));
        try {
            writer.write(new Journals.Trace(trace), quoted(source));
        } catch (IOException fault) {
            throw new UncheckedIOException(fault);
        }
    }

    /** Adds each function of the run, as each state has all of them. */
    private void nameFunctions(Journals.Trace trace) {
        trace.init.keySet().forEach(this::places);
        for (Journals.Trace.Move move; (move = trace.next()) != null;)
            for (Journals.Trace.Change it : move.changes()) places(it.location());
    }

    private Map<Location, Cell> places(Location at) {
        return held.computeIfAbsent(at.name(), name -> new LinkedHashMap<>());
    }

    private void write(Journals.Trace trace, String source) throws IOException {
        String names =
                held.keySet().stream().map(ItfWriter::quoted).collect(Collectors.joining(","));
        out.append("{\"#meta\":{\"format\":\"ITF\",\"format-description\":\"" + PAGE
                + "\",\"source\":" + source + "},\"vars\":[" + names + "],\"states\":[");
        trace.init.forEach(this::put);
        state(0, "{\"index\":0}");
        long index = 0;
        for (Journals.Trace.Move move; (move = trace.next()) != null;) {
            index++;
            move.changes().forEach(this::change);
            state(index, "{\"index\":" + index + ",\"agent\":" + move.agent() + "}");
        }
        out.append("]}\n");
    }

    private void put(Location at, Value value) {
        places(at).remove(at);
        if (!value.isUndef())
            places(at).put(at, new Cell(at, value));
    }

    private void change(Journals.Trace.Change change) {
        if (change instanceof Journals.Trace.Other other)
            put(other.location(), other.now());
        else
            places(change.location()).get(change.location()).change(change);
    }

    /** Writes the state, if it is one of the range. */
    private void state(long index, String meta) throws IOException {
        if (index < first || index > last)
            return;
        List<String> pieces = new ArrayList<>();
        pieces.add((written > 0 ? ",\n" : "") + "{\"#meta\":" + meta);
        held.forEach((name, places) -> {
            String comma = ",\"" + name + "\":{\"#map\":[";
            for (Cell it : places.values()) {
                pieces.add(comma);
                pieces.add(it.entry());
                comma = ",";
            }
            pieces.add(places.isEmpty() ? comma + "]}" : "]}");
        });
        pieces.add("}");
        for (String it : pieces) written += it.codePointCount(0, it.length());
        if (written > limit)
            throw new TooLongException(String.format(Locale.ROOT,
                    "the states of moves %d to %d have more than %,d characters: take fewer by"
                            + " first and last", first, index, limit));
        for (String it : pieces) out.append(it);
    }

    /** What a location has. A member of a set or a bag is a text: a change costs what it changes. */
    private static final class Cell {
        private final String begin;
        private final String end;
        private final boolean isSet;
        private final Map<Element, String> members = new LinkedHashMap<>();
        /** Its text, until it changes. */
        private String entry;

        Cell(Location at, Value value) {
            isSet = value instanceof Value.SetOf;
            boolean isElement = value instanceof Element;
            String kind = isElement ? text(value) : isSet ? "{\"#set\":[" : "{\"#map\":[";
            begin = "[{\"#tup\":" + list(at.arguments()) + "}," + kind;
            end = isElement ? "]" : "]}]";
            if (isSet)
                value.asSet().forEach(it -> put(it, 1));
            else if (!isElement)
                value.asBag().forEach(this::put);
        }

        private void put(Element element, long count) {
            members.remove(element);
            if (count > 0)
                members.put(element, isSet ? text(element) : counted(element, count));
        }

        void change(Journals.Trace.Change change) {
            entry = null;
            if (change instanceof Journals.Trace.OfSet set) {
                set.removed().forEach(members::remove);
                set.added().forEach(it -> put(it, 1));
            } else if (change instanceof Journals.Trace.OfBag bag) {
                bag.counts().forEach(it -> put(it.element(), it.now()));
            }
        }

        String entry() {
            if (entry == null)
                entry = begin + String.join(",", members.values()) + end;
            return entry;
        }
    }

    private static String counted(Element element, long count) {
        return "[" + text(element) + "," + number(count) + "]";
    }

    private static String number(long number) {
        return "{\"#bigint\":\"" + number + "\"}";
    }

    /** Returns the element; undef, which the format hasn't, is a record without fields. */
    private static String text(Value element) {
        if (element.isUndef())
            return "{}";
        if (element instanceof Element.Num num)
            return number(num.value());
        if (element instanceof Element.Text text)
            return quoted(text.value());
        return element instanceof Element.ListOf list ? list(list.items()) : element.json();
    }

    private static String list(List<Element> items) {
        return items.stream().map(ItfWriter::text).collect(Collectors.joining(",", "[", "]"));
    }

    /** Returns the text in quotes, with the escapes of Python's writer. */
    private static String quoted(String text) {
        StringBuilder quoted = new StringBuilder("\"");
        for (char it : text.toCharArray())
            if (it < ' ' || it == '"' || it == '\\')
                quoted.append(String.format("\\u%04x", (int) it));
            else
                quoted.append(it);
        return quoted.append('"').toString();
    }
}
