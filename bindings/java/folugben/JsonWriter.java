package folugben;

import com.fasterxml.jackson.core.JsonFactory;
import com.fasterxml.jackson.core.JsonGenerator;
import com.fasterxml.jackson.core.json.JsonWriteFeature;

import java.io.IOException;
import java.io.StringWriter;
import java.io.UncheckedIOException;
import java.util.Collection;
import java.util.Map;
import java.util.Objects;

/** Writes objects in the forms of docs/FORMATS.md, byte for byte as the storage does. */
final class JsonWriter {
    private static final JsonFactory FACTORY =
            JsonFactory.builder().disable(JsonWriteFeature.WRITE_HEX_UPPER_CASE).build();

    private final JsonGenerator out;

    private JsonWriter(JsonGenerator out) {
        this.out = out;
    }

    /** Writes one item. */
    private interface Item<T> {
        void write(JsonWriter writer, T item) throws IOException;
    }

    private static <T> String text(Item<? super T> form, T item) {
        StringWriter text = new StringWriter();
        try (JsonGenerator out = FACTORY.createGenerator(text)) {
            form.write(new JsonWriter(out), item);
        } catch (IOException error) {
            throw new UncheckedIOException(error);
        }
        return text.toString();
    }

    /** Returns a list; an exception names the argument that is null or has a null item. */
    private static <T> String list(
            Item<? super T> form, Collection<? extends T> items, String name) {
        return text((writer, all) -> writer.each(form, all), Texts.Copies.<T>of(items, name));
    }

    static String text(Value value) {
        return text(JsonWriter::value, value);
    }

    static String text(Location location) {
        return text(JsonWriter::location, location);
    }

    static String text(Instruction instruction) {
        return text(JsonWriter::instruction, instruction);
    }

    static String locations(Collection<Location> locations) {
        return list(JsonWriter::location, locations, "locations");
    }

    static String elements(Collection<Element> elements) {
        return list(JsonWriter::value, elements, "elements");
    }

    static String move(Collection<? extends Instruction> move, String name) {
        return list(JsonWriter::instruction, move, name);
    }

    static String reads(Collection<Named> reads) {
        return list(JsonWriter::named, reads, "reads");
    }

    static String scans(Collection<Scanned> scans) {
        return list(JsonWriter::scanned, scans, "scans");
    }

    static String state(Collection<Pair> pairs, String name) {
        return list(JsonWriter::pair, pairs, name);
    }

    /** Returns the text of a state whose values are such as Value.of takes. */
    static String state(Map<Location, ?> state, String name) {
        return list(JsonWriter::entry, Objects.requireNonNull(state, name).entrySet(), name);
    }

    private <T> void each(Item<? super T> form, Collection<? extends T> items) throws IOException {
        out.writeStartArray();
        for (T item : items) form.write(this, item);
        out.writeEndArray();
    }

    private void value(Value value) throws IOException {
        if (value instanceof Element.Undef)
            out.writeNull();
        else if (value instanceof Element.Bool bool)
            out.writeBoolean(bool.value());
        else if (value instanceof Element.Num num)
            out.writeNumber(num.value());
        else if (value instanceof Element.Text text)
            out.writeString(text.value());
        else if (value instanceof Element.ListOf list)
            member("list", JsonWriter::value, list.items());
        else if (value instanceof Value.SetOf set)
            member("set", JsonWriter::value, set.elements());
        else if (value instanceof Value.BagOf bag)
            member("bag", JsonWriter::count, bag.counts().entrySet());
    }

    private <T> void member(String key, Item<? super T> form, Collection<? extends T> items)
            throws IOException {
        out.writeStartObject();
        out.writeFieldName(key);
        each(form, items);
        out.writeEndObject();
    }

    private void count(Map.Entry<Element, Long> entry) throws IOException {
        out.writeStartArray();
        value(entry.getKey());
        out.writeNumber(entry.getValue());
        out.writeEndArray();
    }

    private void location(Location location) throws IOException {
        out.writeStartArray();
        out.writeString(location.name());
        for (Element argument : location.arguments()) value(argument);
        out.writeEndArray();
    }

    private void pair(Pair pair) throws IOException {
        pair(pair.location(), pair.value());
    }

    private void entry(Map.Entry<Location, ?> entry) throws IOException {
        pair(Objects.requireNonNull(entry.getKey(), "a location is null"),
                Value.of(entry.getValue()));
    }

    private void pair(Location location, Value value) throws IOException {
        out.writeStartArray();
        location(location);
        value(value);
        out.writeEndArray();
    }

    private void named(Named named) throws IOException {
        out.writeStartArray();
        location(named.location());
        out.writeNumber(named.number());
        out.writeEndArray();
    }

    private void scanned(Scanned scanned) throws IOException {
        out.writeStartArray();
        out.writeString(scanned.name());
        out.writeNumber(scanned.number());
        out.writeEndArray();
    }

    private void instruction(Instruction instruction) throws IOException {
        if (instruction instanceof Instruction.Put put) {
            begin("put", put);
            value(put.value());
        } else if (instruction instanceof Instruction.Add add) {
            begin("add", add);
            value(add.element());
        } else if (instruction instanceof Instruction.Remove remove) {
            begin("remove", remove);
            value(remove.element());
        } else if (instruction instanceof Instruction.BagAdd add) {
            begin("bagadd", add);
            value(add.element());
            out.writeNumber(add.amount());
        } else if (instruction instanceof Instruction.BagRemove remove) {
            begin("bagremove", remove);
            value(remove.element());
            out.writeNumber(remove.amount());
        } else if (instruction instanceof Instruction.Inc inc) {
            begin("inc", inc);
            out.writeNumber(inc.by());
        }
        out.writeEndArray();
    }

    private void begin(String word, Instruction instruction) throws IOException {
        out.writeStartArray();
        out.writeString(word);
        location(instruction.location());
    }
}
