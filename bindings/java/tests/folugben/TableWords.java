package folugben;

import static folugben.Test.Checks.equal;

import java.util.ArrayList;
import java.util.List;
import java.util.Map;
import java.util.SortedMap;
import java.util.function.Function;
import java.util.regex.Pattern;
import java.util.stream.Collectors;
import java.util.stream.IntStream;

/** The words of the table of calls, as texts and as objects, and what is wanted of each answer. */
final class TableWords {
    private static final Pattern EACH = Pattern.compile("\\{\"each\":(\\d+),\"of\":([^{}]*)\\}");
    private static final long MOST = 4_294_967_295L;

    /** The codes that have a class of their own. */
    private static final Map<Code, Class<? extends FolugbenException>> KINDS = Map.of(
            Code.STALE, StaleException.class, Code.CLASH, ClashException.class, Code.LARGE, LargeException.class,
            Code.FULL, FullException.class, Code.MANY, ManyException.class, Code.LONG_MOVE, ManyException.class,
            Code.MOVED, MovedException.class, Code.DEEP, DeepException.class);

    private TableWords() {}

    /** The items of an array: its text is split at the commas outside of brackets and strings. */
    static List<String> items(String array) {
        List<String> items = new ArrayList<>();
        int depth = 0;
        int begin = 1;
        boolean isString = false;
        for (int at = 1; at < array.length(); at++) {
            char unit = array.charAt(at);
            if (isString) {
                at += unit == '\\' ? 1 : 0;
                isString = unit != '"';
                continue;
            }
            isString = unit == '"';
            if (depth == 0 && (unit == ',' || unit == ']')) {
                items.add(array.substring(begin, at));
                begin = at + 1;
            }
            depth += "[{".indexOf(unit) >= 0 ? 1 : "]}".indexOf(unit) >= 0 ? -1 : 0;
        }
        return items;
    }

    /** The line with the items that each {"each":COUNT,"of":ITEM} stands for. */
    static String expanded(String line) {
        return EACH.matcher(line).replaceAll(each -> IntStream.range(0, Integer.parseInt(each.group(1)))
                .mapToObj(at -> each.group(2).replace("\"#\"", "" + at))
                .collect(Collectors.joining(",")));
    }

    static String string(String json) {
        return Value.parse(json).asText();
    }

    static String quoted(String text) {
        return Value.of(text).json();
    }

    /** The items of an array as objects; null if it is none of such objects. */
    static <T> List<T> objects(String array, Function<String, T> parse) {
        if (!array.startsWith("["))
            return null;
        try {
            return items(array).stream().filter(it -> !it.isEmpty()).map(parse).toList();
        } catch (IllegalArgumentException | IndexOutOfBoundsException none) {
            return null;
        }
    }

    private static long number(List<String> pair) {
        long number = Long.parseLong(pair.get(1));
        if (number > MOST || pair.size() > 2)
            throw new IllegalArgumentException("no number of moves");
        return number;
    }

    static Named named(String pair) {
        return new Named(Location.parse(items(pair).get(0)), number(items(pair)));
    }

    static Scanned scanned(String pair) {
        return new Scanned(string(items(pair).get(0)), number(items(pair)));
    }

    static Pair pair(String pair) {
        return Pair.of(Location.parse(items(pair).get(0)), Value.parse(items(pair).get(1)));
    }

    private static <T> String array(List<T> all, Function<T, String> json) {
        return all.stream().map(json).collect(Collectors.joining(",", "[", "]"));
    }

    static String values(List<Value> values) {
        return array(values, Value::json);
    }

    static String instructions(List<Instruction> move) {
        return array(move, Instruction::json);
    }

    static String reading(Reading reading) {
        return "{\"number\":" + reading.number() + ",\"values\":" + values(reading.values()) + "}";
    }

    static String offer(Step.Offer offer) {
        return "{\"fire\":" + instructions(offer.fire()) + ",\"reads\":"
                + array(offer.reads(), it -> "[" + it.location().json() + "," + it.number() + "]") + "}";
    }

    static String state(SortedMap<Location, Value> state) {
        return array(List.copyOf(state.entrySet()), it -> "[" + it.getKey().json() + "," + it.getValue().json() + "]");
    }

    /** The answer to a fire or a commit, or what the reply throws; what it says of itself is its code. */
    static String fired(Actor.Reply reply, boolean isOfStep) {
        Code code = reply.code();
        equal(List.of(reply.isFired(), reply.isStale(), reply.isClash(), reply.move() > 0),
                List.of(code == Code.DONE, code == Code.STALE, code == Code.CLASH, code == Code.DONE));
        equal(reply.shouldRetry(), code == Code.STALE || (isOfStep && code == Code.CLASH));
        equal(reply.from() + reply.to(), 0L);
        equal(reply.answer() != null, reply.isStale() || reply.isClash());
        expectObjection(reply.answer(), reply.at(), reply.cause());
        return "{\"fired\":" + reply.orThrow() + "}";
    }

    /** The location and the cause are those of the answer, if it has some. */
    private static void expectObjection(String answer, Location at, Cause cause) {
        boolean isClash = answer != null && answer.startsWith("{\"clash\"");
        String its = answer == null ? "" : answer.substring(answer.indexOf(':') + 1, answer.length() - 1);
        List<String> words = isClash ? items(its) : List.of(its);
        equal("" + at, answer == null ? "null" : "" + Location.parse(words.get(0)));
        equal(("" + cause).equalsIgnoreCase(isClash ? string(words.get(1)) : "null"), true);
    }

    /** The exception has the class of its code, and its message says what that means and where. */
    private static void expectWords(String call, FolugbenException error) {
        Code code = error.code();
        boolean isOfText = List.of("check", "replay").contains(call);
        Class<? extends FolugbenException> kind =
                call.equals("audit") ? AuditException.class : call.equals("commit") && code == Code.CLASH
                        ? CommitClashException.class : KINDS.getOrDefault(code, FolugbenException.class);
        equal(error.getClass(), kind);
        String begin = code == Code.EMPTY ? "the " : code == Code.NOT_JSON ? "not JSON" : code.text();
        equal(error.getMessage().startsWith(begin), true);
        if (error.number() != 0 && (isOfText || code == Code.MISSING))
            equal(error.getMessage().contains(" " + error.number()), true);
        if (error.answer() != null)
            equal(error.getMessage(), code.text() + ": " + error.answer());
        if (error instanceof StaleException stale)
            expectObjection(error.answer(), stale.at(), null);
        else if (error instanceof ClashException clash)
            expectObjection(error.answer(), clash.at(), clash.cause());
        else if (error instanceof CommitClashException clash)
            expectObjection(error.answer(), clash.at(), clash.cause());
        else if (error instanceof LargeException large)
            expectObjection(error.answer(), large.at(), null);
    }

    /** The table's form of an exception: its answer, or its code with where and why, and its numbers. */
    static String refused(String call, FolugbenException error) {
        expectWords(call, error);
        if (error.answer() != null)
            return error.answer();
        List<String> numbers = new ArrayList<>();
        if (FolugbenException.numberName(error.code()) != null)
            numbers.add("" + error.number());
        if (error instanceof AuditException audit)
            numbers.add("" + audit.part());
        return "{\"error\":" + quoted(error.code().name()) + ",\"said\":" + quoted(error.getMessage())
                + ",\"numbers\":[" + String.join(",", numbers) + "]}";
    }

    /** Whether the answer is the one that is wanted; of an error only what is written is compared. */
    static boolean agree(String answer, String wanted) {
        if (!wanted.startsWith("{\"error\""))
            return answer.equals(wanted);
        List<String> members = items("[" + wanted.substring(1, wanted.length() - 1) + "]");
        List<String> own = items("[" + answer.substring(1, answer.length() - 1) + "]");
        String detail = "\"said\":";
        return members.stream().allMatch(member -> !member.startsWith(detail)
                ? own.contains(member)
                : string(own.get(1).substring(detail.length())).contains(string(member.substring(detail.length()))));
    }
}
