package folugben;

import java.io.IOException;
import java.io.UncheckedIOException;
import java.util.LinkedHashSet;
import java.util.List;
import java.util.Set;

/**
 * An agent of a {@link SharedRun}.
 *
 * <p>It begins its steps on a replica in its own process, so that to get and to push takes no round
 * trip. A fire waits for the database.
 */
public final class SharedAgent implements Actor {
    private final SharedRun run;
    private final SharedWorker worker;
    private final int own;
    /** What its agents in segments know of it. */
    private final Run.RunPart chain = new Chain();

    /** The lock of all below. */
    private final Object lock = new Object();
    private Agent agent;
    private Replica.Era era;
    private long won;
    private long fired;
    private volatile boolean isAbandoned;

    SharedAgent(SharedRun run, SharedWorker worker, int own) {
        this.run = run;
        this.worker = worker;
        this.own = own;
    }

    private final class Chain implements Run.RunPart {
        @Override
        public boolean isOver() {
            return !isAbandoned;
        }

        @Override
        public void endStep() {
            // Nobody waits for it.
        }

        @Override
        public void expectRunning() {
            worker.expectRunning();
        }

        @Override
        public long before() {
            return 0;
        }
    }

    /** Does something with its agent in the newest segment. */
    private interface Work<T> {
        T done(Agent agent, Replica.Era era);
    }

    private <T> T now(Work<T> work) {
        synchronized (lock) {
            if (isAbandoned)
                throw FolugbenException.closed("the agent was returned");
            worker.expectRunning();
            if (era != worker.era()) {
                leave();
                Replica.Era[] place = new Replica.Era[1];
                agent = worker.come(place);
                era = place[0];
                agent.setPart(chain);
            }
            return work.done(agent, era);
        }
    }

    /** Returns its agent in a segment to the worker, with the lock. */
    private void leave() {
        if (agent != null)
            worker.leave(era, agent);
        agent = null;
        era = null;
    }

    @Override
    public int number() {
        return own;
    }

    /**
     * Begins a step on the state of this process's replica.
     *
     * <p>Its fire returns once the move is durable in the log.
     */
    @Override
    public Step step() {
        return now((agent, era) -> {
            agent.takeState();
            synchronized (agent.slot) {
                return new SharedStep(this, agent, era);
            }
        });
    }

    /** Appends the pending move of a step to the log; returns the outcome. */
    Reply fire(Replica.Era era, String call, String scans) {
        Reply reply = worker.answer(era.number, own, call, scans);
        if (reply.isFired())
            synchronized (lock) {
                won++;
                fired = Math.max(fired, reply.move());
            }
        return reply;
    }

    /** Waits until the replica has all that is in the log now, and follows it. */
    @Override
    public long follow() {
        worker.follow();
        return now((agent, era) -> era.base + agent.follow());
    }

    @Override
    public Reading peek(List<Location> locations) {
        return now((agent, era) -> agent.peek(locations).plus(era.base));
    }

    /** Returns the value of a prepared location in its own state. */
    public Peeked peek(PreparedLocation location) {
        return now((agent, era) -> {
            Peeked own = agent.peek(location);
            return new Peeked(era.base + own.number(), own.value());
        });
    }

    @Override
    public State state() {
        return now((agent, era) -> ofRun(agent.state(), era));
    }

    @Override
    public State scan(String name) {
        return now((agent, era) -> ofRun(agent.scan(name), era));
    }

    private static State ofRun(State own, Replica.Era era) {
        return new State(era.base + own.number(), own.pairs());
    }

    @Override
    public long seen() {
        return now((agent, era) -> Math.max(fired, era.base + agent.seen()));
    }

    @Override
    public long won() {
        synchronized (lock) {
            return won;
        }
    }

    /** Closes it: its number is free then. It may be called again. */
    @Override
    public void close() {
        synchronized (lock) {
            if (isAbandoned)
                return;
            isAbandoned = true;
            leave();
        }
        try {
            worker.link().let(own);
        } catch (IOException fault) {
            throw new UncheckedIOException(fault);
        }
    }

    boolean isClosed() {
        return isAbandoned;
    }

    @Override
    public String toString() {
        return "agent " + own + " of " + run + (isAbandoned ? ", returned" : "");
    }

    /** A step of an agent of a shared run, whose fire is a call of the run's log. */
    static final class SharedStep extends Step {
        private final SharedAgent shared;
        private final Replica.Era era;
        /** The functions that it has scanned. */
        private final Set<String> scanned = new LinkedHashSet<>();

        /** To be called with the lock of the agent of its process. */
        SharedStep(SharedAgent shared, Agent agent, Replica.Era era) {
            super(agent);
            this.shared = shared;
            this.era = era;
        }

        @Override
        long before() {
            return era.base;
        }

        @Override
        public Agent.State scan(String name) {
            Agent.State found = super.scan(name);
            synchronized (scanned) {
                scanned.add(name);
            }
            return found;
        }

        /** Returns the scans that its fire depends on. */
        private String scans() {
            synchronized (scanned) {
                return JsonWriter.scans(scanned.stream().map(it -> new Scanned(it, own())).toList());
            }
        }

        /**
         * Commits as a step of a storage does; returns once the answer is durable.
         *
         * @throws TooLongException if the move's line could be longer than an audit reads
         * @throws BrokenException if the run has ended: whether the move was fired may not be known
         * @throws UnknownException if whether the move was fired isn't known
         */
        @Override
        public Agent.Reply tryCommit() {
            String call = offerText();
            Agent.Reply reply = shared.fire(era, call, scans());
            if (reply.isFired()) {
                fired = reply.move();
                close();
            }
            return reply;
        }
    }
}
