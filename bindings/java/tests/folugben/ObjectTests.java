package folugben;

import static folugben.Test.Checks.equal;
import static folugben.Test.Checks.nulls;
import static folugben.Test.Checks.outOfRange;
import static folugben.Test.Checks.refused;
import static folugben.Test.Checks.refusedAt;
import static folugben.Test.Checks.refusedValue;

import java.util.ArrayList;
import java.util.Collections;
import java.util.List;
import java.util.Map;
import java.util.Random;
import java.util.TreeMap;

/** Tests of the calls that take and return objects, and of their texts. */
final class ObjectTests {
    private static final int ROUNDS = 400;
    private static final Location X = Location.of("x");
    private static final Location Y = Location.of("y", 1);

    private ObjectTests() {}

    /** The value that the location has in the state. */
    static Value at(Map<Location, Value> state, Location location) {
        return state.getOrDefault(location, Element.undef());
    }

    /**
     * Every call returns the random state that it was opened with, in the text that it has here.
     */
    static void states() {
        for (int round = 0; round < ROUNDS; round++) {
            Randoms random = new Randoms(round);
            Map<Location, Value> state = random.state();
            List<Pair> pairs = new ArrayList<>();
            state.forEach((location, value) -> pairs.add(new Pair(location, value)));
            String text = JsonWriter.state(pairs, "pairs");
            Collections.shuffle(pairs, new Random(round));
            List<Location> places = new ArrayList<>(state.keySet());
            places.add(random.anyLocation());
            List<Value> values = places.stream().map(place -> at(state, place)).toList();
            try (Storage storage = Storage.open(state, 8); Storage other = Storage.open(pairs, 8);
                    Agent agent = storage.agent(0); Agent stranger = other.agent(0);
                    Step step = agent.step()) {
                equal(agent.state(), new Agent.State(0, text));
                equal(stranger.state(), agent.state());
                equal(agent.state().values(), state);
                equal(agent.read(places), new Reading(0, places, values));
                equal(agent.peek(places), agent.read(places));
                equal(step.get(places), values);
                equal(step.scan("x").values(), agent.scan("x").values());
                Map<Location, Value> found = new TreeMap<>(state);
                found.keySet().removeIf(place -> !place.name().equals("x"));
                equal(step.scan("x").values(), found);
            }
        }
    }

    /** Objects are read from their own texts. */
    static void texts() {
        for (int round = 0; round < 10 * ROUNDS; round++) {
            Randoms random = new Randoms(round);
            Value value = random.value();
            equal(Value.parse(value.json()), value);
            Location location = random.anyLocation();
            equal(Location.parse(location.json()), location);
            Instruction instruction = random.instruction();
            equal(Instruction.parse(" " + instruction.json() + "\n"), instruction);
        }
        equal(Value.parse("{\"bag\":[[2,4294967295],[1,1]]}").json(),
                "{\"bag\":[[1,1],[2,4294967295]]}");
        equal(Element.of("\u001f/\u007f\u2028\"").json(), "\"\\u001f/\u007f\u2028\\\"\"");
    }

    /** Each of these texts is refused with these words. */
    static void noTexts() {
        String nested = "{\"list\":[".repeat(100_000) + "]}".repeat(100_000);
        String range = "a number out of range: ";
        String[][] values = {{"1.0", "no whole number at character 0"},
                {"-0", "-0 is no whole number at character 0"},
                {"9223372036854775808", range + "9223372036854775808"},
                {"-9223372036854775809", range + "-9223372036854775809"},
                {"[1]", "no element at character 0"}, {" ", "no value: an empty text"},
                {"{}", "an empty object at character 1"},
                {"{\"sets\":[]}", "no value at character 8"},
                {"{\"set\":[1],\"x\":1}", "more than is expected at character 11"},
                {"{\"set\":[{\"set\":[]}]}", "no list at character 15"},
                {"{\"set\":[1,1]}", "an element stands twice in a set: 1"},
                {"{\"bag\":[[1,1],[1,2]]}", "an element stands twice in a bag: 1"},
                {"{\"bag\":[[1,0]]}", "an amount or a count is 1 to 4294967295, and not 0"},
                {"{\"bag\":[[1,1,1]]}", "more than is expected at character 13"},
                {"1 2", "more than one value at character 2"},
                {"\"\\ud83d\"", "a text has a lone surrogate at index 0"},
                {"\"\ud83d\"", "value has a lone surrogate at index 1"},
                {nested, "lists nest at most 8 deep at character 80"}};
        for (String[] row : values) refusedValue(row[1], () -> Value.parse(row[0]));
        refusedValue("no location at character 0", () -> Location.parse("\"x\""));
        refusedValue("no string at character 1", () -> Location.parse("[7]"));
        refusedValue(
                "no instruction at character 13", () -> Instruction.parse("[\"pop\",[\"x\"],1]"));
        refusedValue("more than is expected at character 15",
                () -> Instruction.parse("[\"put\",[\"x\"],1,2]"));
        try {
            Value.parse("{\"set\":[1,");
        } catch (IllegalArgumentException error) {
            equal(error.getMessage().startsWith("no value: Unexpected end-of-input"), true);
            return;
        }
        throw new IllegalStateException("a text that is cut off is read");
    }

    /** The expected result of a move, as a reply: the updates, or what clashes. */
    static Object foreseen(Map<Location, Value> state, List<Instruction> move) {
        try {
            return Moves.aggregate(state, move);
        } catch (ClashException error) {
            return List.of(error.at(), error.cause());
        }
    }

    /** Random moves are pushed and fired as Moves expects, and the journal has them. */
    static void moves() {
        int fired = 0;
        for (int round = 0; round < ROUNDS; round++) {
            Randoms random = new Randoms(round);
            Map<Location, Value> state = random.state();
            try (Storage storage = Storage.open(state, 64); Agent agent = storage.agent(0)) {
                for (int left = 8; left > 0; left--) {
                    List<Instruction> move = random.move();
                    Object wanted = foreseen(state, move);
                    Agent.Reply reply = agent.tryFire(move, List.of());
                    if (!reply.isFired()) {
                        equal(List.of(reply.at(), reply.cause()), wanted);
                        continue;
                    }
                    fired++;
                    for (Map.Entry<?, ?> entry : ((Map<?, ?>) wanted).entrySet())
                        state.put((Location) entry.getKey(), (Value) entry.getValue());
                    state.values().removeIf(Value::isUndef);
                    agent.follow();
                    equal(agent.state().values(), state);
                }
                agent.give();
                equal(Storage.replayed(storage.closeJournal()), state);
            }
        }
        equal(fired > 2 * ROUNDS, true);
    }

    /** Whether the step takes both moves. */
    static boolean takes(Step step, List<Instruction> first, List<Instruction> second) {
        try {
            step.push(first);
            step.extend(second);
            return true;
        } catch (ClashException error) {
            return false;
        }
    }

    /** Two moves that are pushed in turn leave what their composed move does. */
    static void composed() {
        int composed = 0;
        for (int round = 0; round < ROUNDS; round++) {
            Randoms random = new Randoms(round);
            Map<Location, Value> state = random.state();
            List<Instruction> first = random.move();
            List<Instruction> second = random.move();
            List<Location> places =
                    List.of(0, 1, 2, 3).stream().map(own -> Location.of("x", own)).toList();
            try (Storage storage = Storage.open(state, 8); Agent agent = storage.agent(0);
                    Step step = agent.step()) {
                if (!takes(step, first, second))
                    continue;
                List<Value> seen = step.get(places);
                Map<Location, Value> left = new TreeMap<>(state);
                left.putAll(Moves.aggregate(state, Moves.compose(first, second)));
                equal(seen, places.stream().map(place -> at(left, place)).toList());
                equal(step.tryCommit().orThrow(), 1);
                agent.follow();
                equal(agent.peek(places), new Reading(1, places, seen));
                composed++;
            }
        }
        equal(composed > ROUNDS / 4, true);
    }

    /** Readings name what was read. */
    static void readings() {
        try (Storage storage = Storage.open(List.of(Pair.of(X, 1)), 8);
                Agent agent = storage.agent(0)) {
            Reading reading = agent.read(List.of(X, Y, X));
            equal(reading.named(), List.of(new Named(X, 0), new Named(Y, 0), new Named(X, 0)));
            equal(reading.value(Y).isUndef(), true);
            refusedValue("not read: z", () -> reading.value(Location.of("z")));
            refusedValue("1 locations have 0 values", () -> new Reading(0, List.of(X), List.of()));
        }
    }

    /** What the library refuses, and what no call takes. */
    static void refusals() {
        List<Instruction> more = Collections.nCopies(4097, Instruction.put(X, 1));
        Code shape = Code.SHAPE;
        outOfRange(() -> Storage.open(Map.of(), 0));
        refusedValue("no element: 0.5 (java.lang.Double)", () -> Storage.open(Map.of(X, 0.5), 8));
        try (Storage storage = Storage.open(List.of(), 8); Agent agent = storage.agent(0);
                Step step = agent.step()) {
            String many = ": 4,097 instructions, at most 4,096";
            refusedAt(shape, 0, many + " (first)", () -> Moves.compose(more, List.of()));
            refusedAt(shape, 0, many + " (second)", () -> Moves.compose(List.of(), more));
            refusedAt(shape, 0, many + " (move)", () -> Moves.aggregate(Map.of(), more));
            List<Location> places = null;
            List<Named> reads = null;
            List<Instruction> move = null;
            Map<Location, Value> state = null;
            nulls("locations", () -> agent.read(places), () -> agent.peek(places), () -> step.get(places));
            nulls("reads", () -> agent.stands(reads), () -> agent.tryFire(List.of(), reads));
            nulls("instructions", () -> agent.tryFire(move, List.of()));
            nulls("move", () -> step.push(move), () -> step.extend(move));
            nulls("first", () -> Moves.compose(move, List.of()));
            nulls("second", () -> Moves.compose(List.of(), move));
            nulls("state", () -> Moves.aggregate(state, List.of()));
            nulls("init", () -> Storage.open(state, 8));
            refusedValue("name has a lone surrogate at index 0", () -> step.scan("\ude00").values());
        }
    }

    static void all() {
        states();
        System.out.println("states");
        texts();
        System.out.println("texts");
        noTexts();
        System.out.println("no texts");
        moves();
        System.out.println("moves as objects");
        composed();
        System.out.println("composed");
        readings();
        System.out.println("readings");
        refusals();
        System.out.println("refused objects");
    }
}
