package folugben_engine;

import static folugben_engine.Rules.choose;
import static folugben_engine.Rules.iterate;
import static folugben_engine.Rules.let;
import static folugben_engine.Rules.par;
import static folugben_engine.Rules.seq;
import static folugben_engine.Rules.skip;
import static folugben_engine.Rules.update;

import folugben.Location;
import folugben.Value;
import java.util.ArrayList;
import java.util.List;
import java.util.Map;
import java.util.Random;
import java.util.TreeMap;

/**
 * A bank: who needs money collects it from other accounts, one after the other and all in one step.
 */
public final class Bank implements Machine {
    private static final int OPENING = 100;
    private static final int NEED = 150;

    private final int customers;
    private final int times;
    private final Random random;

    /** A bank of so many customers, each of whom is in need so many times; the seed chooses. */
    public Bank(int customers, int times, long seed) {
        this(customers, times, new Random(seed));
    }

    /** The same with what chooses. */
    public Bank(int customers, int times, Random random) {
        this.customers = customers;
        this.times = times;
        this.random = random;
    }

    @Override
    public Map<Location, ?> init() {
        Map<Location, Integer> state = new TreeMap<>();
        for (int own = 0; own < customers; own++) state.put(Location.of("account", own), OPENING);
        return state;
    }

    @Override
    public List<Program> programs() {
        List<Program> all = new ArrayList<>();
        for (int own = 0; own < customers; own++) all.add(customer(own));
        return all;
    }

    private Program customer(int own) {
        Location account = Location.of("account", own);
        Location due = Location.of("due", own);
        Rule collect = let(see -> see.get(due), rest -> collected(account, due, rest.asLong()));
        Rule rule = seq(
                update(due, Rule.Term.value(NEED)),
                iterate(collect),
                par(update(account, see -> see.getLong(account) + NEED - see.getLong(due)),
                        update(due, Rule.Term.value(null))));
        return new Program(rule, actor -> actor.won() == times);
    }

    /** Takes what is due from another account, or what that has of it. */
    private Rule collected(Location own, Location due, long rest) {
        if (rest == 0)
            return skip();
        return choose(random, "account",
                (at, money) -> !at.equals(own) && money.asLong() > 0,
                (at, money) -> par(
                        update(at, Rule.Term.value(Math.max(money.asLong() - rest, 0))),
                        update(due, Rule.Term.value(Math.max(rest - money.asLong(), 0)))),
                skip());
    }

    @Override
    public boolean holds(Map<Location, Value> state) {
        return state.size() == customers
                && state.values().stream().mapToLong(Value::asLong).sum()
                        == (long) customers * OPENING;
    }

    @Override
    public String claim() {
        return "the sum of the accounts stays";
    }
}
