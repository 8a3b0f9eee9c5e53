import java.util.ArrayList;
import java.util.HashMap;
import java.util.List;
import java.util.Map;
import java.util.concurrent.locks.ReentrantLock;

/**
 * A storage as it is written in a day: a hash map and a history behind one lock. A value is a whole
 * number, and a move puts values.
 */
final class Twin {
    /** A name with its argument. */
    record Location(String name, long argument) {}

    /** A value, and the number of the move that wrote it. */
    private record Cell(long value, int written) {}

    /** A fire: what it puts, what it names at which number, and its move's number, 0 for stale. */
    private record Event(
            int agent, Map<Location, Long> puts, List<Location> named, int at, int number) {}

    /** Something was written since the step began. */
    static final class Moved extends RuntimeException {
        private static final long serialVersionUID = 1;

        Moved() {
            super(null, null, false, false);
        }
    }

    private static final Cell EMPTY = new Cell(0, 0);

    private final ReentrantLock lock = new ReentrantLock();
    private final Map<Location, Cell> state = new HashMap<>();
    private final List<Event> history = new ArrayList<>();
    private int number;

    void open(Location location, long value) {
        state.put(location, new Cell(value, 0));
    }

    /** How many fires were answered. */
    int events() {
        return history.size();
    }

    Step step(int agent) {
        lock.lock();
        try {
            return new Step(agent, number);
        } finally {
            lock.unlock();
        }
    }

    /** What is got and pushed on the state after so many moves. */
    final class Step {
        private final int agent;
        private final int number;
        private final List<Location> reads = new ArrayList<>();
        private final Map<Location, Long> puts = new HashMap<>();

        private Step(int agent, int number) {
            this.agent = agent;
            this.number = number;
        }

        long get(Location location) {
            Long pushed = puts.get(location);
            if (pushed != null)
                return pushed;
            reads.add(location);
            lock.lock();
            try {
                Cell cell = state.getOrDefault(location, EMPTY);
                if (cell.written() > number)
                    throw new Moved();
                return cell.value();
            } finally {
                lock.unlock();
            }
        }

        void push(Location location, long value) {
            puts.put(location, value);
        }

        /** Whether it fired: else something that was got was written since. */
        boolean fire() {
            lock.lock();
            try {
                boolean isValid = true;
                for (Location location : reads)
                    isValid &= state.getOrDefault(location, EMPTY).written() <= number;
                if (isValid) {
                    Twin.this.number++;
                    for (Map.Entry<Location, Long> put : puts.entrySet())
                        state.put(put.getKey(), new Cell(put.getValue(), Twin.this.number));
                }
                history.add(new Event(agent, puts, reads, number, isValid ? Twin.this.number : 0));
                return isValid;
            } finally {
                lock.unlock();
            }
        }
    }
}
