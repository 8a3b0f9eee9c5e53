package folugben;

import java.util.ArrayList;
import java.util.BitSet;
import java.util.HashMap;
import java.util.HashSet;
import java.util.List;
import java.util.Map;
import java.util.Set;
import java.util.TreeMap;
import java.util.function.Predicate;

/** What must hold in each state, and in the last one. */
final class Invariants {
    private final Predicate<? super Map<Location, Value>> invariant;
    private final Predicate<? super Map<Location, Value>> atEnd;
    /** The known states: why one breaks the invariant; empty for one that doesn't. */
    private final Map<Map<Location, Value>, Verdict> known = new HashMap<>();

    Invariants(Predicate<? super Map<Location, Value>> invariant,
            Predicate<? super Map<Location, Value>> atEnd) {
        this.invariant = invariant;
        this.atEnd = atEnd;
    }

    Predicate<? super Map<Location, Value>> invariant() {
        return invariant;
    }

    Predicate<? super Map<Location, Value>> atEnd() {
        return atEnd;
    }

    void forget() {
        known.clear();
    }

    /** Whether something holds, and why it doesn't, if a reason was returned. */
    private record Verdict(boolean holds, String why) {
        static Verdict of(
                Predicate<? super Map<Location, Value>> invariant, Map<Location, Value> values) {
            try {
                return new Verdict(invariant.test(values), "");
            } catch (AssertionError error) {
                return new Verdict(false, error.getMessage() == null ? "" : ": " + error.getMessage());
            }
        }
    }

    /** What doesn't hold after these events. */
    record Breach(List<Schedule.Event> events, String broken, Throwable thrown) {}

    /** Returns what breaks in a schedule, or in one with its order of dependent events; or null. */
    Breach breach(Schedule schedule) {
        List<Schedule.Event> events = schedule.events();
        for (int number = 0; number < schedule.faults().size(); number++) {
            Throwable thrown = schedule.faults().get(number);
            if (thrown != null)
                return new Breach(events, "agent " + number + " threw " + thrown, thrown);
        }
        List<Map<Location, Value>> moments = moments(schedule.journal());
        Breach found = ofMoments(events, moments);
        if (found == null)
            found = ofCuts(events, moments);
        Verdict last = Verdict.of(atEnd, moments.get(moments.size() - 1));
        if (found != null || last.holds)
            return found;
        return new Breach(events, "at the end it doesn't hold" + last.why, null);
    }

    private static List<Map<Location, Value>> moments(String journal) {
        List<Map<Location, Value>> moments = new ArrayList<>();
        Journals.states(journal).forEach(it -> moments.add(it.values()));
        return moments;
    }

    private Verdict verdict(Map<Location, Value> values) {
        return known.computeIfAbsent(values, it -> Verdict.of(invariant, it));
    }

    private static Breach broken(List<Schedule.Event> events, int move, Verdict verdict) {
        return new Breach(events, "the invariant doesn't hold after move " + move + verdict.why, null);
    }

    private Breach ofMoments(List<Schedule.Event> events, List<Map<Location, Value>> moments) {
        int end = 0;
        for (int count = 0; count < moments.size(); count++) {
            Verdict verdict = verdict(moments.get(count));
            if (!verdict.holds)
                return broken(events.subList(0, end), count, verdict);
            while (end < events.size() && !events.get(end).isMove()) end++;
            end++; // after the next move
        }
        return null;
    }

    /**
     * Returns a breach of the states between moves in all schedules of the same order; or null.
     *
     * <p>It is the order of dependent events.
     */
    private Breach ofCuts(List<Schedule.Event> events, List<Map<Location, Value>> moments) {
        BitSet moves = new BitSet();
        for (int at = 0; at < events.size(); at++) moves.set(at, events.get(at).isMove());
        List<BitSet> layer = List.of(new BitSet());
        while (!layer.isEmpty()) {
            Set<BitSet> seen = new HashSet<>();
            List<BitSet> further = new ArrayList<>();
            for (BitSet cut : layer)
                for (int move = moves.nextSetBit(0); move >= 0; move = moves.nextSetBit(move + 1)) {
                    BitSet more = with(cut, move, events, moves);
                    if (more == null || !seen.add(more))
                        continue;
                    further.add(more);
                    Verdict verdict = verdict(values(events, moves, moments, more));
                    if (!verdict.holds)
                        return broken(upTo(events, more), more.cardinality(), verdict);
                }
            layer = further;
        }
        return null;
    }

    /** Returns the moves with one more; null if it is among them, or another must come first. */
    private static BitSet with(BitSet cut, int move, List<Schedule.Event> events, BitSet moves) {
        if (cut.get(move))
            return null;
        BitSet needed = (BitSet) events.get(move).before().clone();
        needed.and(moves);
        needed.andNot(cut);
        if (!needed.isEmpty())
            return null;
        BitSet more = (BitSet) cut.clone();
        more.set(move);
        return more;
    }

    /** Returns the values after some moves: each location has that of its last write by them. */
    private static Map<Location, Value> values(List<Schedule.Event> events, BitSet moves,
            List<Map<Location, Value>> moments, BitSet cut) {
        Map<Location, Value> values = new TreeMap<>(moments.get(0));
        int count = 0;
        for (int move = moves.nextSetBit(0); move >= 0; move = moves.nextSetBit(move + 1)) {
            count++;
            if (!cut.get(move))
                continue;
            for (Location at : events.get(move).footprint().writes()) {
                Value now = moments.get(count).get(at);
                if (now == null)
                    values.remove(at);
                else
                    values.put(at, now);
            }
        }
        return values;
    }

    /** Returns these moves and all events that come before them. */
    private static List<Schedule.Event> upTo(List<Schedule.Event> events, BitSet moves) {
        BitSet all = new BitSet();
        moves.stream().forEach(move -> {
            all.or(events.get(move).before());
            all.set(move);
        });
        return all.stream().mapToObj(events::get).toList();
    }

    /** Returns whether something breaks in this very schedule. */
    boolean isBroken(String journal) {
        List<Map<Location, Value>> moments = moments(journal);
        return moments.stream().anyMatch(it -> !verdict(it).holds)
                || !Verdict.of(atEnd, moments.get(moments.size() - 1)).holds;
    }
}
