package folugben;

import java.nio.charset.StandardCharsets;
import java.security.MessageDigest;
import java.security.NoSuchAlgorithmException;
import java.util.ArrayList;
import java.util.Collection;
import java.util.HashSet;
import java.util.HexFormat;
import java.util.List;
import java.util.Objects;
import java.util.Set;

/**
 * A player that takes a turn at each poll and each fire alone, and notes events.
 *
 * <p>An event is what is done from such a turn to the next one. By that a search knows which events
 * depend on each other.
 */
final class RecordedPlayer extends Turns.Player {
    /** Whether all events count as dependent, by which a test sees what is saved. */
    static volatile boolean areAllDependent;

    /** What an event reads and writes; it may read everything. */
    static final class Footprint {
        private final Set<Location> reads = new HashSet<>();
        private final Set<String> scans = new HashSet<>();
        private final Set<Location> writes = new HashSet<>();
        /** The functions of the locations that it writes. */
        private final Set<String> written = new HashSet<>();
        private boolean readsAll;

        private void write(Location location) {
            writes.add(location);
            written.add(location.name());
        }

        /** Returns the locations that it writes. */
        Set<Location> writes() {
            return writes;
        }

        /**
         * Returns whether the order of the two matters: one writes what the other reads or writes.
         */
        boolean overlaps(Footprint other) {
            return areAllDependent || disturbs(other) || other.disturbs(this)
                    || areCommon(writes, other.writes);
        }

        private boolean disturbs(Footprint other) {
            return areCommon(writes, other.reads) || areCommon(written, other.scans)
                    || other.readsAll && !writes.isEmpty();
        }

        private static boolean areCommon(Set<?> some, Set<?> others) {
            return some.stream().anyMatch(others::contains);
        }

        /** Returns what either of the two reads and writes. */
        Footprint joined(Footprint other) {
            Footprint both = new Footprint();
            for (Footprint it : List.of(this, other)) {
                both.reads.addAll(it.reads);
                both.scans.addAll(it.scans);
                both.writes.addAll(it.writes);
                both.written.addAll(it.written);
                both.readsAll |= it.readsAll;
            }
            return both;
        }

        @Override
        public boolean equals(Object it) {
            return it instanceof Footprint other && reads.equals(other.reads)
                    && scans.equals(other.scans) && writes.equals(other.writes)
                    && readsAll == other.readsAll;
        }

        @Override
        public int hashCode() {
            return Objects.hash(reads, scans, writes, readsAll);
        }
    }

    /** The present event; before the first one it is the beginning. */
    private Footprint now = new Footprint();
    /** How many calls it has, and whether it has fired. */
    private int calls = 1;
    private boolean isMove;
    /** A digest of all answers before this event, and by now, on which what follows depends. */
    private String key = "";
    private String observed = "";
    /** Whether all that was noted of an event was noted within it. */
    private boolean isExact = true;
    /** The step that is open, and the functions that it has scanned. */
    private Step step;
    private final List<String> scanned = new ArrayList<>();

    RecordedPlayer(Turns turns, int number) {
        super(turns, number);
    }

    Footprint now() {
        return now;
    }

    int calls() {
        return calls;
    }

    boolean isMove() {
        return isMove;
    }

    String key() {
        return key;
    }

    boolean isExact() {
        return isExact;
    }

    @Override
    void turn(Object it, boolean isPoll) {
        if (!isPoll) {
            turns.count();
            calls++;
            if (it instanceof Step && it != step)
                depends();
            return;
        }
        // Whether a step goes on after another poll of its agent depends on all that others do.
        boolean isMixed = step != null && it != step;
        now.readsAll |= isMixed;
        turns.await(number());
        now = new Footprint();
        now.readsAll = isMixed;
        calls = 1;
        isMove = false;
        key = observed;
    }

    @Override
    void stepBegan(Step start) {
        step = start;
        scanned.clear();
    }

    @Override
    void stepEnded(Step ended) {
        if (step == ended)
            step = null;
    }

    @Override
    void reads(String locations) {
        now.reads.addAll(JsonReader.locations(locations));
    }

    @Override
    void reads(PreparedLocation location) {
        now.reads.add(location.location());
    }

    @Override
    void readsNamed(String reads) {
        JsonReader.reads(reads).forEach(it -> now.reads.add(it.location()));
    }

    @Override
    void readsAll() {
        now.readsAll = true;
    }

    @Override
    void depends() {
        now.readsAll = true;
        isExact = false;
    }

    @Override
    void scans(String name) {
        now.scans.add(name);
    }

    @Override
    void stepScans(String name) {
        scanned.add(name);
        now.scans.addAll(scanned);
    }

    @Override
    void pushes(Step pushed) {
        // The value that a partial update changes decides if it is taken or refused.
        for (Instruction it : pushed.offerNow().fire())
            if (!(it instanceof Instruction.Put))
                now.reads.add(it.location());
    }

    @Override
    void fires(Step fired) {
        step = null;
        Step.Offer offer = fired.offerNow();
        offer.reads().forEach(it -> now.reads.add(it.location()));
        now.scans.addAll(scanned);
        writes(offer.fire());
    }

    // It counts as written also if the fire is refused: an event does the same in any order.
    private void writes(Collection<Instruction> instructions) {
        instructions.forEach(it -> now.write(it.location()));
    }

    @Override
    void fires(String instructions, String reads, String scans, Actor.Reply reply) {
        readsNamed(reads);
        JsonReader.scans(scans).forEach(it -> now.scans.add(it.name()));
        writes(JsonReader.move(instructions));
        fired(reply);
    }

    @Override
    void fired(Actor.Reply reply) {
        isMove = reply.isFired();
        if (reply.isClash())
            now.reads.add(reply.at());
        if (reply.code() == Code.FULL)
            readsAll();
        observe(reply.code() + " " + reply.answer());
    }

    @Override
    void observe(String more) {
        try {
            MessageDigest digest = MessageDigest.getInstance("SHA-256");
            digest.update((observed + "\n" + more).getBytes(StandardCharsets.UTF_8));
            observed = HexFormat.of().formatHex(digest.digest());
        } catch (NoSuchAlgorithmException error) {
            throw new IllegalStateException(error);
        }
    }

    @Override
    void observe(Room room) {
        observe(room.readValue().json());
    }

    @Override
    void observe(FolugbenException thrown) {
        if (thrown.code() == Code.CLASH)
            now.reads.add(JsonReader.objection(thrown.answer()).at());
        if (thrown.code() == Code.FULL)
            readsAll();
        observe(thrown.code() + " " + thrown.answer());
    }
}
