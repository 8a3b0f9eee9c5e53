package folugben_engine;

import static folugben_engine.Rules.add;
import static folugben_engine.Rules.choose;
import static folugben_engine.Rules.forall;
import static folugben_engine.Rules.iterate;
import static folugben_engine.Rules.let;
import static folugben_engine.Rules.par;
import static folugben_engine.Rules.raise;
import static folugben_engine.Rules.remove;
import static folugben_engine.Rules.seq;
import static folugben_engine.Rules.skip;
import static folugben_engine.Rules.update;
import static folugben_engine.Rules.when;

import folugben.Agent;
import folugben.Auditor;
import folugben.Cause;
import folugben.ClashException;
import folugben.Code;
import folugben.Explorer;
import folugben.Instruction;
import folugben.Interleave;
import folugben.Journals;
import folugben.Location;
import folugben.Run;
import folugben.Step;
import folugben.Storage;
import folugben.Value;
import java.io.IOException;
import java.nio.file.Files;
import java.nio.file.Path;
import java.time.Duration;
import java.util.ArrayList;
import java.util.Collections;
import java.util.Comparator;
import java.util.List;
import java.util.Map;
import java.util.Random;
import java.util.function.BiFunction;
import java.util.function.BiPredicate;
import java.util.stream.Stream;

/** Tests of the engine: each prints its name, and the first that fails ends the program. */
public final class EngineTests {
    private static final Location COUNT = Location.of("count");
    private static final Location SET = Location.of("s");
    private static final Map<Location, Object> INIT = Map.of(COUNT, 3, SET, java.util.Set.of(1),
            f(1), "a", f(2), "b", f(3), "a");

    private EngineTests() {}

    private static Location f(int number) {
        return Location.of("f", number);
    }

    private static void equal(Object actual, Object wanted) {
        if (!actual.equals(wanted))
            throw new IllegalStateException("found " + actual + ", wanted " + wanted);
    }

    private static long count(Step see) {
        return see.getLong(COUNT);
    }

    private static Rule raised(long by) {
        return update(COUNT, see -> count(see) + by);
    }

    /** The values at the locations once the rule has fired on the opening state. */
    private static List<Object> played(Rule rule, Location... places) {
        try (Storage storage = Storage.open(INIT, 10); Agent agent = storage.agent(0)) {
            try (Step step = agent.step()) {
                rule.play(step);
                step.commit();
            }
            agent.follow();
            return new ArrayList<>(agent.peek(List.of(places)).values());
        }
    }

    private static List<Object> values(Object... values) {
        List<Object> all = new ArrayList<>();
        for (Object value : values) all.add(Value.of(value));
        return all;
    }

    private static void partsSeeOneState() {
        Rule swap = par(update(f(1), see -> see.get(f(2))), update(f(2), see -> see.get(f(1))));
        equal(played(par(swap, add(SET, EngineTests::count), remove(SET, Rule.Term.value(1))), f(1),
                      f(2), SET),
                values("b", "a", java.util.Set.of(3)));
        Location g = Location.of("g");
        equal(played(seq(raised(1), raised(1), update(g, EngineTests::count)), COUNT, g),
                values(5, 5));
        equal(played(par(skip(), raise(COUNT, 2), raise(COUNT, 3)), COUNT), values(8));
    }

    private static void conditionsAndNames() {
        Location yes = Location.of("yes");
        Location no = Location.of("no");
        Location let = Location.of("let");
        Rule rule = par(
                when(see -> count(see) == 3, update(yes, Rule.Term.value(1)), update(no, Rule.Term.value(1))),
                when(Rule.Term.value(false), update(no, Rule.Term.value(1))),
                let(EngineTests::count, three -> update(let, Rule.Term.value(three.asLong() + 1))));
        equal(played(rule, yes, no, let), values(1, null, 4));
    }

    private static void iterationsEndWithoutUpdates() {
        Location sum = Location.of("sum");
        Rule rule = seq(update(sum, Rule.Term.value(0)),
                iterate(let(EngineTests::count,
                        rest -> when(Rule.Term.value(rest.asLong() > 0),
                                par(raised(-1), update(sum, see -> see.getLong(sum) + rest.asLong()))))));
        equal(played(rule, COUNT, sum), values(0, 6));
        Rule long_ = iterate(when(see -> count(see) < 1000, raised(1)));
        equal(played(long_, COUNT), values(1000));
    }

    private static void chosenAndAll() {
        BiPredicate<Location, Value> isA = (at, value) -> value.asText().equals("a");
        BiPredicate<Location, Value> isNone = (at, value) -> false;
        BiFunction<Location, Value, Rule> all =
                (at, value) -> update(Location.of("all", at.arguments().get(0)), Rule.Term.value(true));
        Location chosen = Location.of("chosen");
        Location other = Location.of("other");
        Random random = new Random(4);
        BiFunction<Location, Value, Rule> mark =
                (at, value) -> update(chosen, Rule.Term.value(at.arguments().get(0)));
        List<Object> results = new ArrayList<>();
        for (int times = 0; times < 40; times++)
            results.add(played(choose(random, "f", isA, mark, skip()), chosen).get(0));
        equal(results.contains(Value.of(1)) && results.contains(Value.of(3)), true);
        equal(results.contains(Value.of(2)), false);
        Rule rule = par(forall("f", isA, all),
                choose(random, "f", isNone, mark, update(other, Rule.Term.value(1))));
        equal(played(rule, Location.of("all", 1), Location.of("all", 2), Location.of("all", 3),
                      chosen, other),
                values(true, null, true, null, 1));
    }

    private static ClashException clash(Rule rule) {
        try {
            played(rule);
        } catch (ClashException error) {
            return error;
        }
        throw new IllegalStateException("no clash");
    }

    private static void sequencesBesideOthersAreDryRuns() {
        Location inner = Location.of("inner");
        Location beside = Location.of("beside");
        Rule dry = seq(raised(1), iterate(when(see -> count(see) < 9, raised(2))),
                update(inner, EngineTests::count));
        equal(played(par(dry, update(beside, EngineTests::count)), COUNT, inner, beside),
                values(10, 10, 3));
        ClashException error = clash(par(dry, seq(raised(0), update(beside, EngineTests::count))));
        equal(error.at(), COUNT);
        equal(error.cause(), Cause.TWO);
        clash(seq(par(raised(1), update(COUNT, Rule.Term.value(9))), raised(1)));
    }

    /** In sequence these come to nothing, but on a number alone. */
    private static void movesDependOnDryRuns() {
        Rule rule = par(seq(raise(COUNT, 1), raise(COUNT, -1)),
                update(Location.of("g"), Rule.Term.value(1)));
        try (Storage storage = Storage.open(INIT, 10); Agent agent = storage.agent(0);
                Agent rival = storage.agent(1); Step step = agent.step()) {
            rule.play(step);
            equal(step.depth(), 1);
            rival.fire(List.of(Instruction.put(COUNT, "no number")), List.of());
            Agent.Reply reply = step.tryCommit();
            equal(reply.code(), Code.STALE);
            equal(reply.at(), COUNT);
        }
    }

    /** How many states of a journal there are, in each of which that holds. */
    private static long states(Machine machine, String journal) {
        return Journals.states(journal).peek(it -> equal(machine.holds(it.values()), true)).toList().size();
    }

    private static void machinesRunOnStorages() {
        for (Machine machine : List.of(new Bank(8, 10, 1), new Universe(5, 16, 2))) {
            String journal = Engine.onStorage(machine, 10_000);
            equal(Storage.check(journal).moves(), 80);
            equal(states(machine, journal), 81L);
        }
    }

    private static void machinesRunOnRuns() throws IOException {
        Path folder = Files.createTempDirectory("engine");
        for (Machine machine : List.of(new Bank(8, 40, 1), new Universe(8, 40, 2))) {
            Path path = folder.resolve("run");
            try (Run run = Run.open(machine.init(), path, 50)) {
                Engine.onRun(run, machine);
            }
            Auditor.Counts counts = Auditor.audit(path);
            equal(counts.moves(), 320L);
            equal(counts.parts() >= 8, true);
            long states = 0;
            try (Stream<Path> all = Files.list(path)) {
                for (Path file : all.sorted().toList()) {
                    if (file.toString().endsWith(".journal"))
                        states += states(machine, Files.readString(file));
                }
            }
            equal(states, 320 + counts.parts());
            try (Stream<Path> all = Files.walk(path)) {
                for (Path left : all.sorted(Comparator.reverseOrder()).toList()) Files.delete(left);
            }
        }
        Files.delete(folder);
    }

    private static void conditionsCanFail() {
        Machine bank = new Bank(2, 1, 1);
        equal(bank.holds(Map.of(Location.of("account", 0), Value.of(100))), false);
        equal(bank.holds(Map.of(Location.of("account", 0), Value.of(100), Location.of("account", 1),
                      Value.of(101))),
                false);
        Machine universe = new Universe(1, 1, 1);
        Map<Location, Value> scattered = Map.of(Location.of("made", 0), Value.of(1),
                Location.of("parent", 0), Value.of("root"), Location.of("parent", 1), Value.of(7));
        equal(universe.holds(scattered), false);
        equal(universe.holds(Map.of(Location.of("made", 0), Value.of(2), Location.of("parent", 0),
                      Value.of("root"))),
                false);
    }

    private static void seedsAreRepeated() {
        List<String> journals = new ArrayList<>();
        for (int seed : new int[] {1, 1, 2}) {
            Bank bank = new Bank(3, 10, seed);
            journals.add(Engine.byTurns(bank.init(), bank.programs(), seed));
            Storage.check(journals.get(journals.size() - 1));
        }
        equal(journals.get(0), journals.get(1));
        equal(journals.get(0).equals(journals.get(2)), false);
    }

    /** What a search finds of three of five customers of the bank, each of whom collects once. */
    private static Explorer.Explored explored(boolean isGuarded) {
        Bank bank = new Bank(5, 1, new Random() {
            private static final long serialVersionUID = 1;

            @Override
            public int nextInt(int bound) {
                return bound - 1;
            }
        });
        List<Interleave.Work<Agent, Object>> works = new ArrayList<>();
        for (Machine.Program program : bank.programs().subList(0, 3))
            works.add(agent -> isGuarded ? agent.play(program.rule()::play) : blindly(agent, program.rule()));
        return Explorer.of(() -> Storage.open(bank.init(), 100), works)
                .time(Duration.ofMinutes(10))
                .invariant(bank::holds)
                .explore();
    }

    /** Fires the updates of a rule, which then depend on nothing that its step saw. */
    private static Object blindly(Agent agent, Rule rule) {
        List<Instruction> move;
        try (Step step = agent.step()) {
            rule.play(step);
            move = step.offer().fire();
        }
        return agent.fire(move, List.of());
    }

    private static void theBankDependsOnItsGuard() {
        Explorer.Explored found = explored(false);
        equal(found.finding().orElseThrow().turns(), List.of(0, 0, 1));
        Storage.check(found.finding().get().journal());
        Explorer.Explored held = explored(true);
        equal(held.toString(), "108 schedules hold, which are all");
    }

    private static void anErrorOfOneProgramEndsAll() {
        Machine.Program waits = new Machine.Program(when(Rule.Term.value(false), raised(1)), actor -> false);
        Machine.Program clashes = new Machine.Program(
                par(update(COUNT, Rule.Term.value(1)), update(COUNT, Rule.Term.value(2))), actor -> false);
        try (Storage storage = Storage.open(INIT, 10)) {
            Engine.play(number -> storage.agent(number), List.of(waits, clashes, waits));
        } catch (ClashException error) {
            equal(error.at(), COUNT);
            return;
        }
        throw new IllegalStateException("no clash");
    }

    /** Each state is visited: the count goes up by one. */
    private static void statesAreVisited() {
        Machine counts = new Bank(4, 20, 1);
        List<Machine.Program> programs =
                Collections.nCopies(4, new Machine.Program(raised(1), actor -> actor.won() == 20));
        List<Long> results = new ArrayList<>();
        Journals.states(Engine.byTurns(INIT, programs, 5))
                .forEach(it -> results.add(it.values().get(COUNT).asLong()));
        equal(results.size(), 81);
        for (int i = 0; i <= 80; i++) equal(results.get(i), 3L + i);
        equal(counts.claim().isEmpty(), false);
    }

    /** Runs all tests. */
    public static void main(String[] words) throws IOException {
        partsSeeOneState();
        conditionsAndNames();
        iterationsEndWithoutUpdates();
        chosenAndAll();
        sequencesBesideOthersAreDryRuns();
        movesDependOnDryRuns();
        System.out.println("rules");
        machinesRunOnStorages();
        machinesRunOnRuns();
        conditionsCanFail();
        seedsAreRepeated();
        theBankDependsOnItsGuard();
        anErrorOfOneProgramEndsAll();
        statesAreVisited();
        System.out.println("machines");
    }
}
