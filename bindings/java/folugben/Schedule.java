package folugben;

import java.util.ArrayList;
import java.util.BitSet;
import java.util.Collection;
import java.util.Collections;
import java.util.HashMap;
import java.util.HashSet;
import java.util.LinkedHashMap;
import java.util.List;
import java.util.Map;
import java.util.Set;
import java.util.function.Supplier;

/**
 * One schedule of a search by dynamic partial-order reduction.
 *
 * <p>The search uses source sets and sleep sets. The agents of a plan go on first, and then whoever
 * was at work, unless it is asleep.
 *
 * <p>Two events of two agents depend on each other if one writes what the other reads or writes.
 * Schedules in which dependent events have the same order lead to the same answers and states, so
 * one of them is played. What one shows in the order of two dependent events is tried the other way
 * round, unless that was or will be tried elsewhere.
 */
final class Schedule {
    /** After so many polls without a move an agent lets others go on. */
    private static final int VAIN = 4;

    private final Tree tree;
    private final List<Integer> plan;
    private int planned;
    private Node node;
    private int started;
    private int last = -1;
    private boolean isOpen;
    private boolean isBlocked;
    private final List<RecordedPlayer> players = new ArrayList<>();
    private final List<Event> events = new ArrayList<>();
    /** The nodes before the events. */
    private final List<Node> nodes = new ArrayList<>();
    /** The turns of each agent before its first event. */
    private List<Integer> begins = List.of();
    private final List<Reversal> reversals = new ArrayList<>();
    private List<Throwable> faults = List.of();
    private final String journal;

    /**
     * A poll or a fire of an agent, with its further calls up to the next one.
     *
     * <p>The bits of `before` are the events that come before it in each schedule with the same
     * answers.
     */
    record Event(int agent, RecordedPlayer.Footprint footprint, int calls, boolean isMove, BitSet before) {}

    /** The number of an event before which an agent must be tried, and that agent. */
    private record Reversal(int at, int agent) {}

    /** What must be tried: how many turns come before, and which agents go on. */
    record Plan(int length, List<Integer> agents) {}

    /** What an agent did at a node, its footprint, and the node after it. */
    private record Successor(String key, RecordedPlayer.Footprint did, RecordedPlayer.Footprint footprint, Node node) {}

    /** A state of the search, after some events. */
    private static final class Node {
        /** Agents whose next event, which has this footprint, is tried first elsewhere. */
        private final Map<Integer, RecordedPlayer.Footprint> asleep;
        private final Map<Integer, Successor> after = new LinkedHashMap<>();
        /** Which agents were chosen, or must be. */
        private final Set<Integer> chosen = new HashSet<>();

        Node(Map<Integer, RecordedPlayer.Footprint> asleep) {
            this.asleep = asleep;
        }

        /** Returns the node after the last event of a player. */
        Node follow(RecordedPlayer player, RecordedPlayer.Footprint footprint) {
            Successor there = after.get(player.number());
            if (there != null) {
                if (!there.key.equals(player.key()) || !there.did.equals(player.now()))
                    throw differs(player.number());
                return there.node;
            }
            Map<Integer, RecordedPlayer.Footprint> others = new LinkedHashMap<>(asleep);
            after.forEach((agent, it) -> others.put(agent, it.footprint));
            others.remove(player.number());
            others.values().removeIf(own -> own.overlaps(footprint));
            Node next = new Node(others);
            after.put(player.number(), new Successor(player.key(), player.now(), footprint, next));
            return next;
        }
    }

    /**
     * What a search knows.
     *
     * <p>What an event reads may depend on what it has read before. So its footprint has all reads
     * of those events of its agent that had the same answers before. If that grows, the search
     * begins again with it.
     */
    static final class Tree {
        private record Key(int agent, String observed) {}

        private final Node root = new Node(Map.of());
        private final Map<Key, RecordedPlayer.Footprint> footprints;
        private boolean hasGrown;

        /** A search that knows these footprints. */
        Tree(Map<Key, RecordedPlayer.Footprint> footprints) {
            this.footprints = new HashMap<>(footprints);
        }

        Map<Key, RecordedPlayer.Footprint> footprints() {
            return footprints;
        }

        boolean hasGrown() {
            return hasGrown;
        }

        /** The footprint of the last event of a player. */
        private RecordedPlayer.Footprint footprint(RecordedPlayer player) {
            Key key = new Key(player.number(), player.key());
            RecordedPlayer.Footprint known = footprints.get(key);
            RecordedPlayer.Footprint all = known == null ? player.now() : known.joined(player.now());
            hasGrown |= known != null && !all.equals(known);
            footprints.put(key, all);
            return all;
        }
    }

    private static Explorer.DiffersException differs(int agent) {
        return new Explorer.DiffersException("agent " + agent + " did something else in the same"
                + " schedule: the works draw, or share more than the storage");
    }

    /** All agents are asleep: each further schedule is tried elsewhere. */
    private static final class Blocked extends RuntimeException {
        private static final long serialVersionUID = 1;

        Blocked() {
            super(null, null, false, false);
        }
    }

    Schedule(Supplier<Storage> make, List<Interleave.Work<? super Agent, ?>> works, Tree tree,
            List<Integer> plan, int most) {
        this.tree = tree;
        this.plan = plan;
        node = tree.root;
        nodes.add(node);
        Turns turns = new Turns(works.size(), this::choose, most);
        for (int number = 0; number < works.size(); number++) players.add(new RecordedPlayer(turns, number));
        try (Storage storage = make.get()) {
            List<Agent> agents = agents(storage, works.size());
            try {
                faults = turns.play(agents, works, players).faults();
            } catch (Blocked blocked) {
                isBlocked = true;
            }
            endEvent();
            agents.forEach(Agent::close);
            journal = storage.closeJournal();
        }
    }

    /** So many agents of a storage, which nobody has made yet. */
    static List<Agent> agents(Storage storage, int count) {
        List<Agent> agents = new ArrayList<>();
        for (int number = 0; number < count; number++) agents.add(storage.agent(number));
        return agents;
    }

    boolean isBlocked() {
        return isBlocked;
    }

    boolean isExact() {
        return players.stream().allMatch(RecordedPlayer::isExact);
    }

    List<Event> events() {
        return events;
    }

    /** Returns what the works have thrown, each at its place, or null there. */
    List<Throwable> faults() {
        return faults;
    }

    String journal() {
        return journal;
    }

    private int choose(List<Integer> alive) {
        // At first each agent goes on up to its first event.
        if (started < players.size())
            return started++;
        endEvent();
        if (planned < plan.size()) {
            last = plan.get(planned++);
            if (!alive.contains(last))
                throw differs(last);
        } else {
            List<Integer> awake = new ArrayList<>(alive);
            awake.removeAll(node.asleep.keySet());
            if (awake.isEmpty())
                throw new Blocked();
            last = usual(awake);
        }
        node.chosen.add(last);
        isOpen = true;
        return last;
    }

    /**
     * Returns whoever was at work, or another if that one has only polled for a while.
     *
     * <p>It may wait for another one.
     */
    private int usual(List<Integer> awake) {
        int place = awake.indexOf(last);
        if (place < 0)
            return awake.get(0);
        boolean isWaiting = awake.size() > 1 && events.size() >= VAIN
                && events.subList(events.size() - VAIN, events.size())
                        .stream()
                        .allMatch(it -> it.agent == last && !it.isMove);
        return isWaiting ? awake.get((place + 1) % awake.size()) : last;
    }

    /** Notes the event of whoever was at work, all of which is known by now, and its races. */
    private void endEvent() {
        if (!isOpen) {
            if (events.isEmpty())
                begins = players.stream().map(RecordedPlayer::calls).toList();
            return;
        }
        isOpen = false;
        RecordedPlayer player = players.get(last);
        int now = events.size();
        RecordedPlayer.Footprint footprint = tree.footprint(player);
        BitSet before = new BitSet();
        for (int at = now - 1; at >= 0 && before.isEmpty(); at--)
            if (events.get(at).agent == last)
                include(before, at);
        List<Integer> races = new ArrayList<>();
        for (int at = now - 1; at >= 0; at--)
            if (!before.get(at) && footprint.overlaps(events.get(at).footprint)) {
                include(before, at);
                races.add(at);
            }
        events.add(new Event(last, footprint, player.calls(), player.isMove(), before));
        node = node.follow(player, footprint);
        nodes.add(node);
        for (int at : races) reverse(at, now);
    }

    private void include(BitSet before, int at) {
        before.or(events.get(at).before);
        before.set(at);
    }

    /** Tries an event before another one, with what follows it and doesn't depend on it. */
    private void reverse(int at, int now) {
        BitSet window = new BitSet();
        Map<Integer, Integer> firsts = new LinkedHashMap<>();
        for (int it = at + 1; it <= now; it++)
            if (it == now || !events.get(it).before.get(at)) {
                window.set(it);
                firsts.putIfAbsent(events.get(it).agent, it);
            }
        List<Integer> initials = new ArrayList<>();
        firsts.forEach((agent, it) -> {
            if (!events.get(it).before.intersects(window))
                initials.add(agent);
        });
        Node there = nodes.get(at);
        if (Collections.disjoint(initials, there.chosen)
                && Collections.disjoint(initials, there.asleep.keySet())) {
            there.chosen.add(initials.get(0));
            reversals.add(new Reversal(at, initials.get(0)));
        }
    }

    /** Returns the plans that must be tried besides. */
    List<Plan> plans() {
        List<Plan> plans = new ArrayList<>();
        for (Reversal it : reversals) {
            List<Event> before = events.subList(0, it.at);
            List<Integer> agents = new ArrayList<>(before.stream().map(Event::agent).toList());
            agents.add(it.agent);
            plans.add(new Plan(before.stream().mapToInt(Event::calls).sum(), agents));
        }
        return plans;
    }

    /** The turns, as Interleave takes them, by which some of the events come first. */
    List<Integer> listed(Collection<Event> some) {
        List<Integer> left = new ArrayList<>(begins);
        List<Integer> due = new ArrayList<>(begins);
        for (Event event : events) left.set(event.agent, left.get(event.agent) + event.calls);
        List<Integer> order = new ArrayList<>();
        for (Event event : some) {
            // What an agent does between two events may come right before the second one.
            order.addAll(Collections.nCopies(due.get(event.agent) + 1, event.agent));
            due.set(event.agent, event.calls - 1);
        }
        List<Integer> turns = new ArrayList<>();
        int forced = 0;
        int before = -1;
        for (int agent : order) {
            List<Integer> alive = new ArrayList<>();
            for (int it = 0; it < left.size(); it++)
                if (left.get(it) > 0)
                    alive.add(it);
            turns.add(alive.indexOf(agent));
            // After the end of a list whoever was at work goes on, or else the first.
            if (agent != (alive.contains(before) ? before : alive.get(0)))
                forced = turns.size();
            left.set(agent, left.get(agent) - 1);
            before = agent;
        }
        return turns.subList(0, forced);
    }
}
