package folugben;

import static folugben.Test.Checks.equal;
import static folugben.Test.Checks.refused;
import static folugben.Test.Checks.refusedValue;
import static folugben.Test.Checks.thrown;

import java.io.IOException;
import java.io.UncheckedIOException;
import java.nio.file.Files;
import java.nio.file.Path;
import java.util.ArrayList;
import java.util.Arrays;
import java.util.Collections;
import java.util.HashSet;
import java.util.LinkedHashMap;
import java.util.LinkedHashSet;
import java.util.List;
import java.util.Map;
import java.util.Random;
import java.util.Set;
import java.util.regex.Matcher;
import java.util.regex.Pattern;

/** Tests of values, locations and instructions by themselves. */
final class ValueTests {
    private static final Location X = Location.of("x");

    private ValueTests() {}

    /** Equal by content, and so with equal hashes, in whichever order it was passed. */
    static void same(Object one, Object other) {
        equal(one, other);
        equal(one.hashCode(), other.hashCode());
        equal(one.toString(), other.toString());
    }

    static void equality() {
        same(Value.set(3, "a", true), Value.set(true, 3L, "a"));
        same(Value.set(1, 2), Value.of(new LinkedHashSet<>(List.of(2, 1))));
        Map<Object, Object> counts = new LinkedHashMap<>();
        counts.put("b", 1);
        counts.put("a", 2L);
        same(Value.bag(counts), Value.of(Map.of("a", 2, "b", 1L)));
        same(Value.of(List.of(1, List.of("a"))), Element.list(1L, Element.list("a")));
        same(Location.of("f", 1, "a"), Location.parse(" [ \"f\", 1, \"\\u0061\" ] "));
        same(Value.parse("{\"set\":[2,1]}"), Value.set(1, 2));
        same(Value.of(null), Element.undef());
        same(Instruction.put(X, null), Instruction.put(X, new Element.Undef()));
        same(Instruction.put(X, Set.of(1)), new Instruction.Put(X, Value.set((byte) 1)));
        // Each is another one than all others.
        List<Value> distinct =
                List.of(Element.undef(), Element.of(true), Element.of(1), Element.of("1"),
                        Element.of("true"), Element.list(), Element.list(1), Element.list(1, 2),
                        Element.list(2, 1), Value.set(), Value.set(1), Value.set(Element.list(1)),
                        Value.bag(Map.of()), Value.bag(Map.of(1, 1)), Value.bag(Map.of(1, 2)));
        equal(new HashSet<>(distinct).size(), distinct.size());
        equal(Location.of("f", 1).equals(Location.of("f", true)), false);
        equal(Instruction.add(X, 1).equals(Instruction.remove(X, 1)), false);
    }

    static void order() {
        List<Element> ascending = List.of(Element.undef(), Element.of(false), Element.of(true),
                Element.of(Long.MIN_VALUE), Element.of(-1), Element.of(0), Element.of(10),
                Element.of(Long.MAX_VALUE), Element.of(""), Element.of("\u0000"), Element.of("a"),
                Element.of("aa"), Element.of("b"), Element.of("\ue000"), Element.of("\uffff"),
                Element.of("\ud800\udc00"), Element.of("\ud83d\ude00"), Element.list(),
                Element.list(9), Element.list("a"), Element.list(Element.list()),
                Element.list(1, 2), Element.list(1, 3), Element.list(2, 1));
        List<Element> shuffled = new ArrayList<>(ascending);
        Collections.shuffle(shuffled, new Random(7));
        equal(List.copyOf(Value.set(shuffled.toArray()).asSet()), ascending);
        Map<Object, Long> counts = new LinkedHashMap<>();
        for (Element element : shuffled) counts.put(element, 1L);
        equal(List.copyOf(Value.bag(counts).asBag().keySet()), ascending);
        List<Location> locations = List.of(Location.of("A", 9), Location.of("a"),
                Location.of("a", 9), Location.of("a", 1, 1), Location.of("a", 1, 2),
                Location.of("aa"), Location.of("b"));
        List<Location> sorted = new ArrayList<>(locations);
        Collections.reverse(sorted);
        Collections.sort(sorted);
        equal(sorted, locations);
    }

    /** An object with lists around it. */
    private static Object within(int depth, Object inner) {
        return depth == 0 ? inner : within(depth - 1, List.of(inner));
    }

    static void limits() {
        String name = "a name has 1 to 64 letters, digits and _, and begins with no digit";
        for (String none : new String[] {"", "1a", "a b", "\u00e4", "a-", "x".repeat(65), "\u0661"})
            refusedValue(name, () -> Location.of(none));
        for (String word : new String[] {"x".repeat(64), "_", "Z9_az"})
            equal(Location.of(word).name(), word);
        Object[] nine = new Object[9];
        refusedValue("9 arguments, at most 8", () -> Location.of("f", nine));
        equal(Location.of("f", Arrays.copyOf(nine, 8)).arguments().size(), 8);
        refusedValue("a list of 4097 items, at most 4096", () -> Element.list(new Object[4097]));
        equal(Element.list(new Object[4096]).asList().size(), 4096);
        refusedValue("lists nest at most 8 deep", () -> Element.of(within(9, 1)));
        refusedValue("lists nest at most 8 deep", () -> Element.of(within(8, List.of())));
        equal(Element.of(within(8, 1)).depth(), 8);
        List<Object> endless = new ArrayList<>();
        endless.add(endless);
        refusedValue("lists nest at most 8 deep", () -> Element.list(endless));
        Element deep = Element.of(within(8, 1));
        refusedValue("lists nest at most 8 deep", () -> Element.list(1, deep));
        for (long amount : new long[] {0, -1, Value.MAX_COUNT + 1, Long.MIN_VALUE}) {
            String range = "an amount or a count is 1 to 4294967295, and not " + amount;
            refusedValue(range, () -> Value.bag(Map.of("a", amount)));
            refusedValue(range, () -> Instruction.bagAdd(X, 1, amount));
            refusedValue(range, () -> Instruction.bagRemove(X, 1, amount));
        }
        equal(Value.bag(Map.of("a", Value.MAX_COUNT)).asBag().get(Element.of("a")), 4294967295L);
        refusedValue("a count is an Integer or a Long: 1.0", () -> Value.bag(Map.of("a", 1.0)));
        refusedValue("an element stands twice in a set: 1", () -> Value.set(1, 2, 1L));
        refusedValue("an element stands twice in a bag: 1",
                () -> Value.of(new LinkedHashMap<>(Map.of(1, 1, 1L, 1))));
        refusedValue("a number of moves is 0 or more, and not -1", () -> new Named(X, -1));
        refusedValue("no element: 1.0 (java.lang.Double)", () -> Element.of(1.0));
        refusedValue("no element: c (java.lang.Character)", () -> Value.of('c'));
        refusedValue("no element: set {} (folugben.Value$SetOf)", () -> Value.set(Value.set()));
        refusedValue("a text has a lone surrogate at index 1", () -> Location.of("f", "a\ud83d"));
        refusedValue("a text has a lone surrogate at index 0", () -> Element.list("\ude00a"));
    }

    /** Changes of what an object was made of, or returns, can't change it. */
    static void immutable() {
        List<Element> items = new ArrayList<>(List.of(Element.of(1)));
        Set<Element> elements = new HashSet<>(items);
        Map<Element, Long> counts = new LinkedHashMap<>(Map.of(Element.of(1), 1L));
        Value list = new Element.ListOf(items);
        Value set = new Value.SetOf(elements);
        Value.BagOf bag = new Value.BagOf(counts);
        Location location = new Location("f", items);
        items.clear();
        elements.clear();
        counts.clear();
        equal(List.of(list, set, bag, location).toString(), "[[1], set {1}, bag {1: 1}, f(1)]");
        equal(bag.count(Element.of(1)) + bag.count(Element.of(2)), 1L);
        Class<? extends RuntimeException> kind = UnsupportedOperationException.class;
        thrown(kind, null, () -> list.asList().clear());
        thrown(kind, null, () -> set.asSet().clear());
        thrown(kind, null, () -> bag.counts().clear());
        thrown(kind, null, () -> location.arguments().clear());
    }

    static void printed() {
        Location at = Location.of("account", 1, "a\"b", null, List.of(true));
        equal(at.toString(), "account(1, \"a\\\"b\", undef, [true])");
        equal(Instruction.put(X, Set.of()).toString(), "put x set {}");
        equal(Instruction.add(X, "e").toString(), "add x \"e\"");
        equal(Instruction.remove(X, 1).toString(), "remove x 1");
        equal(Instruction.bagAdd(X, 1, 2).toString(), "bagadd x 1 2");
        equal(Instruction.bagRemove(X, 1, 2).toString(), "bagremove x 1 2");
        equal(Instruction.inc(X, -1).toString(), "inc x -1");
        equal(new Named(X, 3).toString(), "x at 3");
        equal(Pair.of(X, Map.of("e", 2)).toString(), "x = bag {\"e\": 2}");
    }

    static void kinds() {
        equal(Element.of(7).asLong(), 7L);
        equal(Element.of("a").asText(), "a");
        equal(Element.of(true).asBoolean(), true);
        equal(Element.list(1).asList(), List.of(Element.of(1)));
        equal(Value.set(1).asSet(), Set.of(Element.of(1)));
        equal(Value.of(Map.of(1, 2)).asBag(), Map.of(Element.of(1), 2L));
        Class<? extends RuntimeException> kind = IllegalStateException.class;
        thrown(kind, "no number: \"7\"", () -> Element.of("7").asLong());
        thrown(kind, "no text: 7", () -> Element.of(7).asText());
        thrown(kind, "no boolean: undef", () -> Element.undef().asBoolean());
        thrown(kind, "no list: set {}", () -> Value.set().asList());
        thrown(kind, "no set: []", () -> Element.list().asSet());
        thrown(kind, "no bag: set {}", () -> Value.set().asBag());
    }

    static void all() {
        equality();
        System.out.println("equality");
        order();
        System.out.println("order");
        limits();
        System.out.println("limits");
        immutable();
        System.out.println("immutable");
        printed();
        System.out.println("printed");
        kinds();
        System.out.println("kinds");
    }

    /** Tests of codes, and of a reply that no call here returns. */
    static final class KindTests {
        private KindTests() {}

        /** The codes of the header, by name, if its place is known; else none. */
        private static Map<String, Integer> ofHeader() {
            String root = System.getProperty("folugben.root");
            Map<String, Integer> codes = new java.util.TreeMap<>();
            if (root == null)
                return codes;
            try {
                String header = Files.readString(Path.of(root, "include/folugben.h"));
                String table = header.substring(header.indexOf("ASM_DONE = 0"));
                Matcher found = Pattern.compile("ASM_(\\w+) = (\\d+)")
                                        .matcher(table.substring(0, table.indexOf("};")));
                while (found.find()) codes.put(found.group(1), Integer.valueOf(found.group(2)));
            } catch (IOException fault) {
                throw new UncheckedIOException(fault);
            }
            equal(codes.size(), Code.values().length);
            return codes;
        }

        static void codes() {
            for (Code code : Code.values()) {
                equal(Code.of(code.number()), code);
                equal(code.text().isEmpty(), false);
            }
            ofHeader().forEach((name, number) -> equal(Code.valueOf(name).number(), number));
        }

        /** A lost attempt to append says how far behind the agent was. */
        static void busy() {
            Agent.Reply reply = new Agent.Reply(Code.BUSY, 0, 3, 70, null);
            BusyException busy = (BusyException) refused(Code.BUSY, reply::orThrow);
            equal(busy.from(), 3);
            equal(busy.to(), 70);
            String seen = " (the agent had seen 3 moves at the start of the call and 70 at its end)";
            equal(busy.getMessage(), Code.BUSY.text() + seen);
            equal(new LargeException(Code.LARGE, "", null).at() == null, true);
        }

        static void all() {
            codes();
            System.out.println("codes of the header");
            busy();
            System.out.println("busy");
        }
    }
}
