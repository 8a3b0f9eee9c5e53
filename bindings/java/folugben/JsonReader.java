package folugben;

import com.fasterxml.jackson.core.JsonFactory;
import com.fasterxml.jackson.core.JsonParser;
import com.fasterxml.jackson.core.JsonProcessingException;
import com.fasterxml.jackson.core.JsonToken;

import java.io.IOException;
import java.io.StringWriter;
import java.io.UncheckedIOException;
import java.lang.reflect.Method;
import java.util.ArrayList;
import java.util.Collections;
import java.util.List;
import java.util.Map;
import java.util.SortedMap;
import java.util.TreeMap;

/**
 * Reads the forms of docs/FORMATS.md, from the storage and from a caller.
 * A caller's text must have the keys of an object once and in the order of the storage's own texts.
 */
final class JsonReader {
    private static final JsonFactory FACTORY = unlimited(JsonFactory.builder()).build();

    /** The longest text that getText returns in each version. */
    private static final int SURE = 20_000_000;

    private final JsonParser in;

    private JsonReader(JsonParser in) {
        this.in = in;
    }

    /**
     * Returns the builder of a factory that reads texts of any length.
     * Jackson from 2.15 on otherwise refuses those above 20,000,000 characters.
     */
    static <T> T unlimited(T builder) {
        for (Method method : builder.getClass().getMethods())
            if (method.getName().equals("streamReadConstraints")
                    && method.getParameterCount() == 1)
                try {
                    Class<?> constraints = method.getParameterTypes()[0];
                    Object limits = constraints.getMethod("builder").invoke(null);
                    Method most = limits.getClass().getMethod("maxStringLength", int.class);
                    most.invoke(limits, Integer.MAX_VALUE);
                    method.invoke(builder, limits.getClass().getMethod("build").invoke(limits));
                } catch (ReflectiveOperationException error) {
                    throw new IllegalStateException("a version of Jackson that isn't known", error);
                }
        return builder;
    }

    /** Reads a form: begins at the parser's current token, and ends on the form's last. */
    interface Form<T> {
        T read(JsonReader reader) throws IOException;
    }

    /** Returns what the text is read as; throws if it is no such form. */
    static <T> T parsed(String text, String kind, Form<T> form) {
        try (JsonParser in = FACTORY.createParser(Texts.unicode(text, kind))) {
            if (in.nextToken() == null)
                throw new IllegalArgumentException("no " + kind + ": an empty text");
            JsonReader reader = new JsonReader(in);
            T result = form.read(reader);
            reader.expect(in.nextToken() == null, "more than one value");
            return result;
        } catch (JsonProcessingException error) {
            throw new IllegalArgumentException(
                    "no " + kind + ": " + error.getOriginalMessage(), error);
        } catch (IOException error) {
            throw new UncheckedIOException(error);
        }
    }

    /** Returns the locations and values of a state, in ascending order. */
    static SortedMap<Location, Value> state(String pairs) {
        return parsed(pairs, "state", reader -> {
            SortedMap<Location, Value> state = new TreeMap<>();
            reader.list(JsonReader::pair).forEach(
                    pair -> state.put(pair.location(), pair.value()));
            return Collections.unmodifiableSortedMap(state);
        });
    }

    /** What the header of a journal says of the storage: capacity and opening state. */
    record Header(int capacity, String init) {}

    static Header header(String line) {
        return parsed(line, "header", reader -> {
            reader.key("agents");
            reader.number();
            reader.nextKey("capacity");
            int capacity = Math.toIntExact(reader.number());
            reader.nextKey("events");
            reader.number();
            reader.nextKey("init");
            List<Pair> init = reader.list(JsonReader::pair);
            reader.nextKey("version");
            reader.number();
            reader.end(JsonToken.END_OBJECT);
            return new Header(capacity, JsonWriter.state(init, "init"));
        });
    }

    /** Returns the locations [LOC, ..]. */
    static List<Location> locations(String locations) {
        return parsed(locations, "locations", reader -> reader.list(JsonReader::location));
    }

    static List<Instruction> move(String move) {
        return parsed(move, "move", reader -> reader.list(JsonReader::instruction));
    }

    /** Returns the reading {"number":N,"values":[VALUE, ..]} of the locations. */
    static Reading reading(String answer, List<Location> locations) {
        return parsed(answer, "reading", reader -> {
            reader.key("number");
            long number = reader.number();
            reader.nextKey("values");
            List<Value> values = reader.list(JsonReader::value);
            reader.end(JsonToken.END_OBJECT);
            return new Reading(number, locations, values);
        });
    }

    /** Returns the pending move {"fire":[INSTR, ..],"reads":[NAMED, ..]} of a step. */
    static Step.Offer offer(String text) {
        return parsed(text, "offer", reader -> {
            reader.key("fire");
            List<Instruction> fire = reader.list(JsonReader::instruction);
            reader.nextKey("reads");
            List<Read> reads = reader.list(JsonReader::read);
            reader.end(JsonToken.END_OBJECT);
            return new Step.Offer(fire,
                    reads.stream()
                            .map(it -> new Named(it.location(), it.number()))
                            .toList());
        });
    }

    /** A location as a text names it, at a number that may be above the moves so far. */
    record Read(Location location, long number) {}

    static List<Read> reads(String reads) {
        return parsed(reads, "reads", reader -> reader.list(JsonReader::read));
    }

    /** A function's name as a text has it, at such a number. */
    record Scan(String name, long number) {}

    static List<Scan> scans(String scans) {
        return parsed(scans, "scans", reader -> reader.list(JsonReader::scan));
    }

    private Scan scan() throws IOException {
        begin(JsonToken.START_ARRAY, "no scan");
        String name = string();
        return ended(new Scan(name, nextNumber()), JsonToken.END_ARRAY);
    }

    private Read read() throws IOException {
        begin(JsonToken.START_ARRAY, "no read");
        Location location = location();
        return ended(new Read(location, nextNumber()), JsonToken.END_ARRAY);
    }

    /** What {"stale":LOC}, {"large":LOC} or {"clash":[LOC,CAUSE]} says. */
    record Objection(Location at, Cause cause) {}

    static Objection objection(String answer) {
        return parsed(answer, "answer", JsonReader::objection);
    }

    private Objection objection() throws IOException {
        expect(in.currentToken() == JsonToken.START_OBJECT, "no object");
        in.nextToken();
        boolean isClash = "clash".equals(in.currentName());
        in.nextToken();
        if (!isClash)
            return new Objection(ended(location(), JsonToken.END_OBJECT), null);
        begin(JsonToken.START_ARRAY, "no clash");
        Location at = location();
        in.nextToken();
        Cause cause = Cause.of(in.getText());
        end(JsonToken.END_ARRAY);
        return new Objection(at, ended(cause, JsonToken.END_OBJECT));
    }

    Value value() throws IOException {
        return in.currentToken() == JsonToken.START_OBJECT ? valueOf(key()) : plain();
    }

    /** Returns the value of an object whose first key was read. */
    Value valueOf(String key) throws IOException {
        return switch (key) {
            case "list" -> ended(items(1), JsonToken.END_OBJECT);
            case "set" -> ended(set(), JsonToken.END_OBJECT);
            case "bag" -> ended(bag(), JsonToken.END_OBJECT);
            default -> throw shape("no value");
        };
    }

    Element element() throws IOException {
        return element(1);
    }

    /** Returns an element, within so many lists around it. */
    private Element element(int depth) throws IOException {
        if (in.currentToken() != JsonToken.START_OBJECT)
            return plain();
        key("list");
        return ended(items(depth), JsonToken.END_OBJECT);
    }

    private Element items(int depth) throws IOException {
        if (depth > Element.MAX_DEPTH)
            throw shape("lists nest at most " + Element.MAX_DEPTH + " deep");
        return new Element.ListOf(list(reader -> reader.element(depth + 1)));
    }

    private Element plain() throws IOException {
        JsonToken token = in.currentToken();
        expect(token.isScalarValue(), "no element");
        return switch (token) {
            case VALUE_NULL -> Element.undef();
            case VALUE_TRUE -> new Element.Bool(true);
            case VALUE_FALSE -> new Element.Bool(false);
            case VALUE_STRING -> new Element.Text(text());
            default -> new Element.Num(number());
        };
    }

    /** Returns the text of a string. In some distributions getText is always limited. */
    private String text() throws IOException {
        if (in.getTextLength() <= SURE)
            return in.getText();
        StringWriter text = new StringWriter(in.getTextLength());
        in.getText(text);
        return text.toString();
    }

    /** Returns an integer of 64 bits. */
    long number() throws IOException {
        expect(in.currentToken() == JsonToken.VALUE_NUMBER_INT, "no whole number");
        String digits = in.getText();
        expect(!digits.equals("-0"), "-0 is no whole number");
        try {
            // getLongValue of Jackson 2.14.1 refuses numbers of 19 digits.
            return Long.parseLong(digits);
        } catch (NumberFormatException error) {
            throw new IllegalArgumentException("a number out of range: " + digits, error);
        }
    }

    private Value set() throws IOException {
        return Value.set(list(JsonReader::element).toArray());
    }

    private Value bag() throws IOException {
        SortedMap<Element, Long> counts = new TreeMap<>();
        for (Map.Entry<Element, Long> entry : list(JsonReader::count))
            if (counts.put(entry.getKey(), entry.getValue()) != null)
                throw Texts.Words.isTwice("bag", entry.getKey());
        return new Value.BagOf(counts);
    }

    private Map.Entry<Element, Long> count() throws IOException {
        begin(JsonToken.START_ARRAY, "no element with its count");
        Element element = element();
        in.nextToken();
        return ended(Map.entry(element, number()), JsonToken.END_ARRAY);
    }

    Location location() throws IOException {
        begin(JsonToken.START_ARRAY, "no location");
        String name = string();
        List<Element> arguments = new ArrayList<>();
        while (in.nextToken() != JsonToken.END_ARRAY) arguments.add(element());
        return new Location(name, arguments);
    }

    Pair pair() throws IOException {
        begin(JsonToken.START_ARRAY, "no pair");
        Location location = location();
        in.nextToken();
        return ended(new Pair(location, value()), JsonToken.END_ARRAY);
    }

    Instruction instruction() throws IOException {
        begin(JsonToken.START_ARRAY, "no instruction");
        String word = string();
        in.nextToken();
        Location at = location();
        in.nextToken();
        return ended(switch (word) {
            case "put" -> new Instruction.Put(at, value());
            case "add" -> new Instruction.Add(at, element());
            case "remove" -> new Instruction.Remove(at, element());
            case "bagadd" -> new Instruction.BagAdd(at, element(), nextNumber());
            case "bagremove" -> new Instruction.BagRemove(at, element(), nextNumber());
            case "inc" -> new Instruction.Inc(at, number());
            default -> throw shape("no instruction");
        }, JsonToken.END_ARRAY);
    }

    private long nextNumber() throws IOException {
        in.nextToken();
        return number();
    }

    private String string() throws IOException {
        expect(in.currentToken() == JsonToken.VALUE_STRING, "no string");
        return in.getText();
    }

    /** What is done with a member of an object; the reader's token is its value. */
    interface Member {
        void read(String name, JsonReader reader) throws IOException;
    }

    /** Reads the members of an object; skips those that the work doesn't read. */
    static void members(String text, String kind, Member member) {
        parsed(text, kind, reader -> {
            reader.begin(JsonToken.START_OBJECT, "no object");
            while (reader.in.currentToken() == JsonToken.FIELD_NAME) {
                String name = reader.in.currentName();
                reader.next();
                member.read(name, reader);
                reader.in.skipChildren(); // does nothing if a value was read to its end
                reader.next();
            }
            return reader;
        });
    }

    /** Goes on to the next token, and returns it. */
    JsonToken next() throws IOException {
        return in.nextToken();
    }

    /** Returns the items of an array. */
    <T> List<T> list(Form<? extends T> form) throws IOException {
        expect(in.currentToken() == JsonToken.START_ARRAY, "no array");
        List<T> items = new ArrayList<>();
        while (in.nextToken() != JsonToken.END_ARRAY) items.add(form.read(this));
        return items;
    }

    /** Returns the first key of an object; the parser's token is then its value. */
    String key() throws IOException {
        begin(JsonToken.START_OBJECT, "no object");
        expect(in.currentToken() == JsonToken.FIELD_NAME, "an empty object");
        String key = in.currentName();
        in.nextToken();
        return key;
    }

    private void key(String wanted) throws IOException {
        expect(key().equals(wanted), "no " + wanted);
    }

    void nextKey(String wanted) throws IOException {
        expect(in.nextToken() == JsonToken.FIELD_NAME && in.currentName().equals(wanted),
                "no " + wanted);
        in.nextToken();
    }

    /** Goes on from the expected token. */
    void begin(JsonToken token, String what) throws IOException {
        expect(in.currentToken() == token, what);
        in.nextToken();
    }

    /** Goes on to the expected token. */
    void end(JsonToken token) throws IOException {
        expect(in.nextToken() == token, "more than is expected");
    }

    private <T> T ended(T result, JsonToken token) throws IOException {
        end(token);
        return result;
    }

    private void expect(boolean holds, String what) throws IOException {
        if (!holds)
            throw shape(what);
    }

    private IllegalArgumentException shape(String what) {
        return new IllegalArgumentException(
                what + " at character " + in.getTokenLocation().getCharOffset());
    }
}
