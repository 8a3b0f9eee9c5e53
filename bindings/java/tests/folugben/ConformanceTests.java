package folugben;

import static folugben.TableWords.items;
import static folugben.TableWords.quoted;
import static folugben.TableWords.string;

import java.io.IOException;
import java.nio.charset.StandardCharsets;
import java.nio.file.Files;
import java.nio.file.Path;
import java.util.HashMap;
import java.util.List;
import java.util.Map;
import java.util.function.Function;

/**
 * The table of calls and answers that every package returns: bindings/conformance says what its
 * lines are. The calls are done twice, the second time with objects, by agents that record.
 */
final class ConformanceTests {
    private final boolean isRecording;
    /** Whether the line's words are texts that may be no JSON. */
    private boolean isOfTexts;
    /** How many reads each agent made by itself. */
    private final Map<String, Integer> read = new HashMap<>();
    private Storage storage;
    private final Map<String, Agent> agents = new HashMap<>();
    private final Map<String, Step> steps = new HashMap<>();
    /** The moves that are gathered, or were popped. */
    private final Map<String, Move> moves = new HashMap<>();
    private String journal;

    private ConformanceTests(boolean isRecording) {
        this.isRecording = isRecording;
    }

    private void begin() {
        steps.values().forEach(Step::close);
        agents.values().forEach(Agent::close);
        moves.values().forEach(Move::close);
        steps.clear();
        agents.clear();
        moves.clear();
        read.clear();
        if (storage != null)
            storage.close();
        storage = null;
    }

    /** The answer to a call, in the words of the table. */
    private String answer(String name, List<String> words) {
        try {
            return called(name, words);
        } catch (FolugbenException error) {
            return TableWords.refused(name, error);
        } catch (IllegalArgumentException error) {
            return "{\"error\":" + quoted(CODES.getOrDefault(name, "SHAPE")) + "}";
        } catch (IllegalStateException error) {
            if (!error.getMessage().startsWith("no set or bag: "))
                throw error;
            return "{\"error\":\"SHAPE\"}";
        }
    }

    /** The objects of a text that is an array of some, if they are to be passed; else null. */
    private <T> List<T> objects(String array, Function<String, T> parse) {
        return isRecording && !isOfTexts ? TableWords.objects(array, parse) : null;
    }

    /** The codes of the arguments that Java refuses by itself. */
    private static final Map<String, String> CODES =
            Map.of("open", "CAPACITY", "next", "CAPACITY", "go_on", "CAPACITY", "agent", "AGENTS");

    private String called(String name, List<String> words) {
        String own = words.isEmpty() ? "" : words.get(0);
        return switch (name) {
            case "open" -> {
                int capacity = Integer.parseInt(words.get(1));
                List<Pair> state = objects(own, TableWords::pair);
                storage = state == null ? new Storage(own, capacity) : Storage.open(state, capacity);
                storage.record(isRecording);
                yield "null";
            }
            case "next" -> {
                Storage before = storage;
                storage = before.next(Integer.parseInt(own));
                before.close(); // it is needed no more
                read.clear();
                yield "null";
            }
            case "go_on" -> {
                storage = agents.get(own).goOn(Integer.parseInt(words.get(1)));
                read.clear();
                yield "null";
            }
            case "agent", "take" -> {
                int number = Integer.parseInt(own);
                agents.put(own, name.equals("take") ? storage.take(number) : storage.agent(number));
                yield "null";
            }
            case "moves" -> "" + storage.moves();
            case "close" -> {
                journal = storage.closeJournal();
                yield "null";
            }
            case "journal" -> checked(journal, recorded(journal));
            case "lines", "recorded" -> "[" + String.join(",", journal.lines().skip(1).toList()) + "]";
            case "left" -> Storage.replay(journal);
            case "length" -> "" + move(own).size();
            case "gather", "unite", "drop" -> nothing(() -> gather(name, move(own), words.subList(1, words.size())));
            case "instructions" -> "[" + String.join(",", move(own).instructions().stream().map(Instruction::json).toList()) + "]";
            case "check" -> checked(string(own), 0);
            case "replay" -> Storage.replay(string(own));
            case "aggregate" -> aggregate(own, words.get(1));
            case "compose" -> compose(own, words.get(1));
            case "audit" -> audited(string(own));
            case "explain" -> quoted(Storage.explain(Storage.Form.valueOf(string(own)), string(words.get(1))));
            case "begin", "end", "get", "get_at", "see", "get_all", "has", "count_of", "size", "any", "count", "push", "push_move", "extend",
                    "extend_move", "pop", "pop_move", "step_stands", "depth", "offer", "commit" -> ofStep(name, own, words.subList(1, words.size()));
            case "read" -> read(own, agents.get(own), words.get(1));
            default -> ofAgent(name, agents.get(own), words.subList(1, words.size()));
        };
    }

    private Move move(String number) {
        return moves.computeIfAbsent(number, it -> new Move());
    }

    private void gather(String name, Move move, List<String> words) {
        if (name.equals("drop"))
            move.clear();
        else if (name.equals("unite"))
            move.unite(move(words.get(0)));
        else
            for (String instruction : items(words.get(0)))
                if (!instruction.isEmpty())
                    move.gather(Instruction.parse(instruction));
    }

    private String aggregate(String state, String move) {
        List<Pair> pairs = objects(state, TableWords::pair);
        List<Instruction> all = objects(move, Instruction::parse);
        Map<Location, Value> values = new HashMap<>();
        if (pairs != null)
            pairs.forEach(it -> values.put(it.location(), it.value()));
        boolean isOfObjects = pairs != null && all != null && values.size() == pairs.size();
        return isOfObjects ? TableWords.state(Moves.aggregate(values, all)) : Moves.aggregate(state, move);
    }

    private String compose(String first, String second) {
        List<Instruction> one = objects(first, Instruction::parse);
        List<Instruction> other = objects(second, Instruction::parse);
        return one == null || other == null ? Moves.compose(first, second)
                                            : TableWords.instructions(Moves.compose(one, other));
    }

    private static String checked(String journal, int recorded) {
        Storage.Checked checked = Storage.check(journal);
        return "[" + (checked.calls() - recorded) + "," + checked.moves() + "]";
    }

    /** How many reads of a journal were recorded by commits: those that no agent made by itself. */
    private int recorded(String journal) {
        long reads = journal.lines().filter(it -> it.contains(",\"call\":{\"read\":")).count();
        return (int) reads - agents.entrySet()
                .stream()
                .filter(it -> !it.getValue().isCheckedOut())
                .mapToInt(it -> read.getOrDefault(it.getKey(), 0))
                .sum();
    }

    private String read(String own, Agent agent, String locations) {
        List<Location> places = objects(locations, Location::parse);
        String reading = places == null ? agent.read(locations) : TableWords.reading(agent.read(places));
        read.merge(own, 1, Integer::sum);
        return reading;
    }

    private static String audited(String text) {
        try (Auditor auditor = new Auditor()) {
            auditor.feed(text.getBytes(StandardCharsets.UTF_8));
            Auditor.Counts counts = auditor.end();
            return "[" + counts.calls() + "," + counts.moves() + "," + counts.parts() + "]";
        }
    }

    private String ofStep(String name, String own, List<String> words) {
        if (name.equals("begin")) {
            Step start = agents.get(own).step();
            steps.put(own, start);
            return "" + start.number();
        }
        Step step = steps.get(own);
        boolean isOfPlaces = name.equals("get") || name.equals("see");
        boolean isOfMove = name.equals("push") || name.equals("extend");
        List<Location> places = isOfPlaces ? objects(words.get(0), Location::parse) : null;
        List<Instruction> all = isOfMove ? objects(words.get(0), Instruction::parse) : null;
        return switch (name) {
            case "get" -> places == null ? values(step.get(words.get(0))) : TableWords.values(step.get(places));
            case "see" -> places == null ? values(step.see(words.get(0))) : TableWords.values(step.see(places));
            case "has", "count_of", "size" -> ofMembers(step, name, words);
            case "get_at" -> atPrepared(words.get(0), at -> step.get(at).json());
            case "push_move" -> nothing(() -> step.push(move(words.get(0))));
            case "extend_move" -> nothing(() -> step.extend(move(words.get(0))));
            case "pop_move" -> nothing(() -> step.popMove(move(words.get(0))));
            case "get_all" -> step.scan(string(words.get(0))).pairs();
            case "any" -> "" + step.any(string(words.get(0)));
            case "count" -> "" + step.count(string(words.get(0)));
            case "push" -> nothing(all == null ? () -> step.push(words.get(0)) : () -> step.push(all));
            case "extend" -> nothing(all == null ? () -> step.extend(words.get(0)) : () -> step.extend(all));
            case "pop" -> nothing(step::pop);
            case "step_stands" -> step.stands().map(at -> "{\"stale\":" + at.json() + "}").orElse("null");
            case "depth" -> "" + step.depth();
            case "offer" -> isRecording ? TableWords.offer(step.offer()) : step.offerText();
            case "commit" -> isRecording ? TableWords.fired(step.tryCommit(), true)
                                         : "{\"fired\":" + step.commit() + "}";
            default -> nothing(step::close);
        };
    }

    /** What a step says of a set or a bag, the second time at a prepared location. */
    private String ofMembers(Step step, String name, List<String> words) {
        Location at = Location.parse(words.get(0));
        Element element = name.equals("size") ? null : (Element) Value.parse(words.get(1));
        if (isRecording)
            return atPrepared(words.get(0), prepared -> switch (name) {
                case "size" -> "" + step.size(prepared);
                case "has" -> "" + step.has(prepared, element);
                default -> "" + step.countOf(prepared, element);
            });
        return switch (name) {
            case "size" -> "" + step.size(at);
            case "has" -> "" + step.has(at, element);
            default -> "" + step.countOf(at, element);
        };
    }

    private static String atPrepared(String location, Function<PreparedLocation, String> call) {
        try (PreparedLocation at = new PreparedLocation(location)) {
            return call.apply(at);
        }
    }

    private static String peeked(Agent.Peeked peeked) {
        return "{\"number\":" + peeked.number() + ",\"values\":[" + peeked.value().json() + "]}";
    }

    /** The values of a reading {"number":N,"values":[..]}. */
    private static String values(String reading) {
        String before = "\"values\":";
        return reading.substring(reading.indexOf(before) + before.length(), reading.length() - 1);
    }

    private static String nothing(Runnable call) {
        call.run();
        return "null";
    }

    private String ofAgent(String name, Agent agent, List<String> words) {
        return switch (name) {
            case "give" -> nothing(agent::give);
            case "abandon" -> nothing(agent::abandon);
            case "answer" -> agent.answer();
            case "peek_at" -> atPrepared(words.get(0), at -> peeked(agent.peek(at)));
            case "learn" -> nothing(() -> agent.learn(agents.get(words.get(0))));
            case "peek" -> {
                List<Location> places = objects(words.get(0), Location::parse);
                yield places == null ? agent.peek(words.get(0)) : TableWords.reading(agent.peek(places));
            }
            case "fire" -> fire(agent, words);
            case "follow" -> "" + agent.follow();
            case "stands" -> {
                List<Named> reads = objects(words.get(0), TableWords::named);
                Actor.Reply reply = reads == null ? agent.stands(words.get(0)) : agent.stands(reads);
                Test.Checks.equal(List.of(reply.isFired(), reply.isStale(), reply.shouldRetry()),
                        List.of(false, reply.answer() != null, reply.answer() != null));
                yield reply.orThrow() == 0 ? "null" : "fired";
            }
            case "state" -> stateText(agent.state(), words.get(0));
            case "scan" -> stateText(agent.scan(string(words.get(0))), words.get(1));
            case "seen" -> "" + agent.seen();
            case "won" -> "" + agent.won();
            case "misses" -> "" + agent.misses();
            default -> throw new IllegalStateException("no call: " + name);
        };
    }

    private String fire(Agent agent, List<String> words) {
        List<Instruction> move = objects(words.get(0), Instruction::parse);
        List<Named> reads = objects(words.get(1), TableWords::named);
        List<Scanned> scans = objects(words.get(2), TableWords::scanned);
        if (move == null || reads == null || scans == null)
            return "{\"fired\":" + agent.fire(words.get(0), words.get(1), words.get(2)) + "}";
        return TableWords.fired(scans.isEmpty() ? agent.tryFire(move, reads) : agent.tryFire(move, reads, scans), false);
    }

    private static String stateText(Agent.State state, String number) {
        Test.Checks.equal("" + state.number(), number);
        return state.pairs();
    }

    private static int replayed(Path table, boolean isRecording) throws IOException {
        ConformanceTests replayer = new ConformanceTests(isRecording);
        int number = 0;
        int count = 0;
        int times = 1;
        for (String line : Files.readAllLines(table)) {
            number++;
            List<String> all = items(TableWords.expanded(line));
            String name = string(all.get(0));
            replayer.isOfTexts = name.equals("text");
            if (replayer.isOfTexts) {
                name = string(all.get(1));
                all = all.stream().skip(1).map(it -> it.startsWith("\"") ? string(it) : it).toList();
            }
            if (name.equals("repeat"))
                times = Integer.parseInt(all.get(1));
            else if (name.equals("case"))
                replayer.begin();
            // The journal of agents that record has their reads too.
            else if (!name.equals(isRecording ? "lines" : "recorded")) {
                for (; times > 0; times--) {
                    String fault = replayer.fault(name, all);
                    if (fault != null)
                        throw new IllegalStateException(table.getFileName() + ":" + number + ": " + fault);
                }
                times = 1;
                count++;
            }
        }
        replayer.begin();
        return count;
    }

    /** What is wrong with the answer to the call of a line, or null. */
    private String fault(String name, List<String> all) {
        boolean isEnd = name.equals("end");
        String answer = answer(name, all.subList(1, all.size() - (isEnd ? 0 : 1)));
        String wanted = isEnd ? "null" : all.get(all.size() - 1);
        return TableWords.agree(answer, wanted) ? null : "found " + answer + ", wanted " + wanted;
    }

    static void all() {
        String root = System.getProperty("folugben.root");
        if (root == null) {
            System.out.println("left out: the table of calls (no -Dfolugben.root=FOLDER)");
            return;
        }
        for (String name : List.of("moves", "calls", "polls", "steps", "gathered", "commits", "journals"))
            try {
                for (boolean isRecording : new boolean[] {false, true}) {
                    Path table = Path.of(root, "bindings/conformance", name + ".jsonl");
                    Test.Checks.equal(replayed(table, isRecording) > 20, true);
                }
            } catch (IOException fault) {
                throw new IllegalStateException(fault);
            }
        System.out.println("the table of calls");
    }
}
