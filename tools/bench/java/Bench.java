import com.sun.jna.Function;
import com.sun.jna.Memory;
import com.sun.management.OperatingSystemMXBean;

import java.lang.management.ManagementFactory;
import java.util.Arrays;

/**
 * Takes steps by the library and by the twin in turn, with texts and without, and writes a line for
 * each crowd of threads: its name, and the medians of the nanoseconds that one step took, for all
 * threads together: the library's and the twin's by the clock, and both of processor time. With the
 * word --quick it takes fewer.
 */
final class Bench {
    static final int THREADS = 16;
    static final int LOCATIONS = 64;
    static final int LEAST = 5;
    static final int MOST = 9;
    /** The twin's rounds have so many times as many steps, so that they are as long. */
    static final int TWIN_TIMES = 10;
    /** The bytes of a set of processors. */
    static final long MASK = 128;

    private Bench() {}

    private record Crowd(String name, int threads, boolean shares) {}

    private static final Crowd[] CROWDS = {new Crowd("1 thread", 1, false),
            new Crowd("4 threads, a location each", 4, false),
            new Crowd("4 threads, one location", 4, true),
            new Crowd("8 threads, a location each", 8, false),
            new Crowd("8 threads, one location", 8, true),
            new Crowd("16 threads, a location each", THREADS, false),
            new Crowd("16 threads, one location", THREADS, true)};

    private static final OperatingSystemMXBean PROCESS =
            (OperatingSystemMXBean) ManagementFactory.getOperatingSystemMXBean();

    /** What one step took, in nanoseconds. */
    private record CallTime(double clock, double processor) {}

    /**
     * Moves the thread to a processor of its own, if there are as many, and lets it go from there:
     * else the scheduler may leave all threads on one for the short time of a round.
     */
    private static void spread(int number) {
        Function set = Function.getFunction("c", "sched_setaffinity");
        try (Memory all = new Memory(MASK); Memory own = new Memory(MASK)) {
            Function.getFunction("c", "sched_getaffinity").invokeInt(new Object[] {0, MASK, all});
            own.clear();
            own.setLong(0, 1L << number % Runtime.getRuntime().availableProcessors());
            set.invokeInt(new Object[] {0, MASK, own});
            set.invokeInt(new Object[] {0, MASK, all});
        }
    }

    /** Takes so many steps, which the threads share out among them. */
    private static CallTime timed(Side side, Crowd crowd, int steps) throws InterruptedException {
        int own = steps / crowd.threads();
        Thread[] threads = new Thread[crowd.threads()];
        int[] fired = new int[crowd.threads()];
        for (int i = 0; i < threads.length; i++) {
            int number = i;
            int location = crowd.shares() ? 0 : i;
            threads[i] = new Thread(() -> {
                if (crowd.threads() > 1)
                    spread(number);
                int done = 0;
                while (done < own)
                    if (side.step(number, location))
                        done++;
                fired[number] = done;
            });
        }
        long used = PROCESS.getProcessCpuTime();
        long begin = System.nanoTime();
        for (Thread thread : threads) thread.start();
        for (Thread thread : threads) thread.join();
        long end = System.nanoTime();
        used = PROCESS.getProcessCpuTime() - used;
        if (Arrays.stream(fired).sum() != steps)
            throw new IllegalStateException("a thread ended early");
        return new CallTime((double) (end - begin) / steps, (double) used / steps);
    }

    /** A round on a storage of its own, whose locations must show each step. */
    private static CallTime round(Side side, Crowd crowd, int steps) throws InterruptedException {
        side.open(steps);
        System.gc();
        CallTime time = timed(side, crowd, steps);
        if (side.close() != steps)
            throw new IllegalStateException("a step was lost");
        return time;
    }

    private static double median(double[] times, int count) {
        Arrays.sort(times, 0, count);
        return (times[(count - 1) / 2] + times[count / 2]) / 2;
    }

    private static void measure(String name, Side ours, Crowd crowd, int steps, double seconds)
            throws InterruptedException {
        Side theirs = new Theirs();
        double[][] times = new double[4][MOST];
        int count = 0;
        // The first round is for the compiler.
        round(ours, crowd, steps);
        round(theirs, crowd, TWIN_TIMES * steps);
        for (long begin = System.nanoTime(); count < LEAST
                || count < MOST && System.nanoTime() - begin < 1e9 * seconds;
                count++) {
            CallTime mine = round(ours, crowd, steps);
            CallTime its = round(theirs, crowd, TWIN_TIMES * steps);
            times[0][count] = mine.clock();
            times[1][count] = its.clock();
            times[2][count] = mine.processor();
            times[3][count] = its.processor();
        }
        StringBuilder line = new StringBuilder("Java: " + name + "; " + crowd.name());
        for (double[] each : times) line.append("\t").append(Math.round(median(each, count)));
        System.out.println(line);
    }

    public static void main(String[] words) throws InterruptedException {
        boolean isQuick = words.length > 0 && words[0].equals("--quick");
        int steps = isQuick ? 4000 : 20000;
        double seconds = isQuick ? 0.3 : 1.5;
        for (Crowd crowd : CROWDS) measure("step", new Ours(), crowd, steps, seconds);
        for (Crowd crowd : CROWDS) measure("step without text", new Plain(), crowd, steps, seconds);
    }
}
