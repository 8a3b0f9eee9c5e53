package folugben_engine;

import static folugben_engine.Rules.choose;
import static folugben_engine.Rules.let;
import static folugben_engine.Rules.par;
import static folugben_engine.Rules.skip;
import static folugben_engine.Rules.update;

import folugben.Element;
import folugben.Location;
import folugben.Value;
import java.util.ArrayList;
import java.util.List;
import java.util.Map;
import java.util.Random;
import java.util.TreeMap;

/**
 * A universe that grows: each agent imports nodes, whose numbers are its own.
 *
 * <p>No other agent takes them. It hangs each node below the last one of some agent.
 */
public final class Universe implements Machine {
    private final int agents;
    private final int times;
    private final Random random;

    /** A universe in which so many agents make so many nodes each; the seed chooses. */
    public Universe(int agents, int times, long seed) {
        this.agents = agents;
        this.times = times;
        random = new Random(seed);
    }

    private static Location parent(long node) {
        return Location.of("parent", node);
    }

    @Override
    public Map<Location, ?> init() {
        Map<Location, Object> state = new TreeMap<>();
        state.put(parent(0), "root");
        for (int own = 0; own < agents; own++) {
            state.put(Location.of("made", own), 0);
            state.put(Location.of("last", own), 0);
        }
        return state;
    }

    @Override
    public List<Program> programs() {
        List<Program> all = new ArrayList<>();
        for (int own = 0; own < agents; own++) all.add(gardener(own));
        return all;
    }

    private Program gardener(int own) {
        Location made = Location.of("made", own);
        Location last = Location.of("last", own);
        // A count for each agent: two that took numbers from one count would make each other stale.
        Rule rule = let(see -> see.get(made), count -> {
            long node = 1 + own + agents * count.asLong();
            return choose(random, "last", (at, below) -> true,
                    (at, below) -> par(
                            update(parent(node), Rule.Term.value(below)),
                            update(last, Rule.Term.value(node)),
                            update(made, Rule.Term.value(count.asLong() + 1))),
                    skip());
        });
        return new Program(rule, actor -> actor.won() == times);
    }

    @Override
    public boolean holds(Map<Location, Value> state) {
        long nodes = 0;
        long made = 1;
        for (Map.Entry<Location, Value> it : state.entrySet())
            switch (it.getKey().name()) {
                case "parent" -> {
                    nodes++;
                    if (it.getValue() instanceof Element.Num above
                            && !state.containsKey(parent(above.value())))
                        return false;
                }
                case "made" -> made += it.getValue().asLong();
                default -> {}
            }
        return nodes == made;
    }

    @Override
    public String claim() {
        return "each node hangs below a node, and none was made twice";
    }
}
