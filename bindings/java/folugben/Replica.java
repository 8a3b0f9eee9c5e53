package folugben;

import java.io.ByteArrayOutputStream;
import java.io.IOException;
import java.nio.ByteBuffer;
import java.nio.charset.StandardCharsets;
import java.util.ArrayDeque;
import java.util.ArrayList;
import java.util.Arrays;
import java.util.Deque;
import java.util.List;

/**
 * The state of a shared run up to a place of its log.
 *
 * <p>It is a storage to which one agent fires the calls of the log, in their order. Equal calls in
 * equal order have equal answers. So all replicas of a run agree on each answer, and on where a
 * segment ends.
 */
final class Replica {
    /** A segment ends after so many calls for each of its moves, as stale ones are kept too. */
    private static final int CALLS = 2;
    /** How often a call of the log is tried that was refused memory, and how long after, in ms. */
    private static final int TRIES = 100;
    private static final int PAUSE = 10;

    /** The answer to a call of this process: a reply, or the error that it was answered with. */
    record Answer(Actor.Reply reply, FolugbenException error) {}

    /** A segment that has ended, with its text and the place of its last call. */
    record EndedSegment(Segment segment, byte[] text, long place) {}

    /** The effect of a call: its answer, and what it has ended, each null if there is none. */
    record Effect(Answer answer, EndedSegment ended) {}

    private final int moves;
    private Segment segment;
    private long applied;
    private volatile Era era;
    private int fired;

    /** Makes the replica after a segment, which is checked. */
    Replica(SharedLog log, SharedLog.SegmentEnd last) throws IOException {
        moves = log.moves();
        segment = last.segment();
        applied = last.place();
        try (Trail trail = new Trail()) {
            trail.take(segment.name(), log.length(segment), sink -> log.text(segment, sink));
            era = new Era(trail.core.state(), segment.number() + 1, segment.end(), moves);
        }
    }

    /** Returns its present storage. */
    Era era() {
        return era;
    }

    /** Returns the place of the last call that was applied. */
    long applied() {
        return applied;
    }

    /** Fires the call at the next place; a call of another process has no answer. */
    Effect apply(SharedLog.LogEntry next, boolean isOwn) {
        SharedLog.Call call = next.call();
        Answer answer = isOwn ? new Answer(past(), null) : null;
        if (call.segment() == era.number)
            answer = fire(call, isOwn);
        applied = next.place();
        boolean continues = fired < moves && era.events() < (long) CALLS * moves;
        return new Effect(answer, continues ? null : end());
    }

    /** Returns the reply to a call whose segment had ended. */
    private static Actor.Reply past() {
        return new Actor.Reply(Code.FULL, 0, 0, 0, null, true, true);
    }

    private Answer fire(SharedLog.Call call, boolean isOwn) {
        byte[] move = call.call().getBytes(StandardCharsets.UTF_8);
        byte[] scans = call.scans().getBytes(StandardCharsets.UTF_8);
        byte[] both = Arrays.copyOf(move, move.length + scans.length);
        System.arraycopy(scans, 0, both, move.length, scans.length);
        Agent applier = era.applier;
        synchronized (applier.slot) {
            Code code;
            int tries = 0;
            while ((code = applier.slot.fireOver(both, move.length)) == Code.MEMORY) {
                if (++tries == TRIES)
                    throw new OutOfMemoryError("a call of the log was refused memory");
                Patience.rest(PAUSE);
            }
            boolean isEvent = code == Code.DONE || code == Code.STALE
                    || code == Code.CLASH;
            if (isEvent)
                era.note(call.agent());
            if (code == Code.DONE)
                fired = applier.slot.room.number(0);
            return isOwn ? answer(applier, code, move) : null;
        }
    }

    private Answer answer(Agent applier, Code code, byte[] move) {
        try {
            FolugbenException.expectFire(isReply(code) ? Code.DONE : code, move);
            Actor.Reply own = applier.reply(code, true);
            return new Answer(new Actor.Reply(code, own.move() == 0 ? 0 : era.base + own.move(), 0, 0,
                                      own.answer(), true, true),
                    null);
        } catch (FolugbenException error) {
            return new Answer(null, error);
        }
    }

    private static boolean isReply(Code code) {
        return code == Code.STALE || code == Code.CLASH
                || code == Code.BUSY;
    }

    private EndedSegment end() {
        Era ended = era;
        String state = state().pairs();
        Era next = new Era(state, ended.number + 1, ended.base + fired, moves);
        EndedSegment now = closeSegment();
        segment = now.segment();
        era = next;
        fired = 0;
        return now;
    }

    /** Closes its storage: returns the segment that ends here. */
    private EndedSegment closeSegment() {
        byte[] text = era.journal();
        return new EndedSegment(Trail.after(segment, fired, era.events(), text), text, applied);
    }

    /** Returns the number of moves of the run up to its place, and the state after them. */
    Actor.State state() {
        Agent applier = era.applier;
        applier.follow();
        Actor.State own = applier.state();
        return new Actor.State(era.base + own.number(), own.pairs());
    }

    void close() {
        era.close();
    }

    /**
     * Returns what the log has after a saved segment, as segments.
     *
     * @throws SharedLog.OutdatedException if further segments were saved meanwhile
     */
    static List<EndedSegment> rest(SharedLog log, Segment last)
            throws IOException, SharedLog.OutdatedException {
        Replica replica = new Replica(log, log.ended(last));
        List<EndedSegment> segments = new ArrayList<>();
        try {
            List<SharedLog.LogEntry> placed;
            while (!(placed = log.exchange(List.of(), replica.applied)).isEmpty())
                for (SharedLog.LogEntry next : placed) {
                    EndedSegment ended = replica.apply(next, false).ended();
                    if (ended != null)
                        segments.add(ended);
                }
        } catch (TooLongException full) {
            // It is the last one, whose state is too long for a line.
        }
        if (replica.era.events() > 0)
            segments.add(replica.closeSegment());
        else
            replica.close();
        return segments;
    }

    /**
     * A storage of a replica, with its segment's number and the number of moves before it.
     *
     * <p>Its calls are made with the lock of the replica's worker.
     */
    static final class Era {
        private static final byte[] HEADER = "{\"agents\":".getBytes(StandardCharsets.US_ASCII);
        private static final byte[] EVENT = "{\"agent\":".getBytes(StandardCharsets.US_ASCII);

        /** Its number among the segments. */
        final long number;
        /** How many moves come before it. */
        final long base;
        /** The one agent that fires. */
        final Agent applier;

        private final Storage storage;
        /** The numbers that agents of this process may have in the storage, and the made ones. */
        private final Deque<Integer> free = new ArrayDeque<>();
        private final boolean[] hasAgent = new boolean[Storage.AGENTS];
        /** The agents of the calls, as the log has them: a byte for each. */
        private final ByteArrayOutputStream agents = new ByteArrayOutputStream();

        Era(String state, long number, long base, int moves) {
            this.number = number;
            this.base = base;
            for (int own = 1; own < Storage.AGENTS; own++) free.add(own);
            storage = new Storage(state, moves);
            applier = storage.agent(0);
        }

        /**
         * Returns an agent of this process, to begin steps with; it fires nothing.
         *
         * @throws FolugbenException as a {@link ManyException} if there are 255 already
         */
        Agent agent() {
            Integer own = free.poll();
            if (own == null)
                throw new ManyException(Code.AGENTS, "one process has at most 255 agents of a shared run");
            Agent taken = hasAgent[own] ? storage.take(own) : storage.agent(own);
            hasAgent[own] = true;
            return taken;
        }

        /** Takes back an agent of this process; one of an era that has ended is released. */
        void leave(Agent agent) {
            if (!agent.isCheckedOut())
                return;
            agent.close();
            free.add(agent.number());
        }

        /** Notes the agent of a call that is an event of its journal. */
        void note(int agent) {
            agents.write(agent);
        }

        /** Returns how many events its journal has. */
        int events() {
            return agents.size();
        }

        /**
         * Closes it; returns its journal, with the agents' numbers of the log.
         *
         * <p>Steps may go on.
         */
        byte[] journal() {
            applier.give();
            ByteBuffer plain = storage.closeJournal(new Room());
            byte[] text = new byte[plain.remaining()];
            plain.get(text);
            storage.close();
            return renumbered(text);
        }

        /** Closes it without a journal. */
        void close() {
            applier.close();
            storage.close();
        }

        private byte[] renumbered(byte[] text) {
            byte[] own = agents.toByteArray();
            int count = 0;
            for (byte agent : own) count = Math.max(count, Byte.toUnsignedInt(agent) + 1);
            ByteArrayOutputStream all = new ByteArrayOutputStream(text.length + 2 * own.length);
            // Agents that have only begun steps count in the header too.
            int at = write(all, text, 0, HEADER, count);
            for (byte agent : own) at = write(all, text, at, EVENT, Byte.toUnsignedInt(agent));
            return all.toByteArray();
        }

        /** Writes the line at this index with another number after its prefix; returns its end. */
        private static int write(ByteArrayOutputStream all, byte[] text, int at, byte[] prefix, int number) {
            int rest = at + prefix.length;
            while (text[rest] != ',') rest++;
            int end = rest;
            while (text[end] != '\n') end++;
            all.writeBytes(prefix);
            all.writeBytes(Integer.toString(number).getBytes(StandardCharsets.US_ASCII));
            all.write(text, rest, end + 1 - rest);
            return end + 1;
        }
    }
}
