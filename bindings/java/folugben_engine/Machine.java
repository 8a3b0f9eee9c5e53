package folugben_engine;

import folugben.Actor;
import folugben.Location;
import folugben.Value;
import java.util.List;
import java.util.Map;
import java.util.function.Predicate;

/** An opening state, the programs of agents, and what holds in each state. */
public interface Machine {
    /** A rule that is played in step after step, and a test whether its agent is done. */
    record Program(Rule rule, Predicate<Actor> isOver) {}

    /** Returns the opening state. */
    Map<Location, ?> init();

    /** Returns a program for each agent. */
    List<Program> programs();

    /** Returns whether the claim holds in a state. */
    boolean holds(Map<Location, Value> state);

    /** Returns the claim in words. */
    String claim();
}
