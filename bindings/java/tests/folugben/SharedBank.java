package folugben;

import java.io.UncheckedIOException;
import java.net.ConnectException;
import java.util.ArrayList;
import java.util.List;
import java.util.Map;
import java.util.TreeMap;
import java.util.concurrent.ThreadLocalRandom;

/** What tests of shared runs start in processes of its own: agents that transfer money. */
final class SharedBank {
    static final int ACCOUNTS = 6;
    static final long MONEY = 100;
    static final Location MARK = Location.of("mark");

    private SharedBank() {}

    static Location account(int own) {
        return Location.of("account", own);
    }

    static Map<Location, Long> opening() {
        Map<Location, Long> state = new TreeMap<>();
        for (int own = 0; own < ACCOUNTS; own++) state.put(account(own), MONEY);
        return state;
    }

    /** A transfer between accounts that are drawn, with a mark by which it is found in the log. */
    static long transfer(Actor agent, String mark) {
        int from = ThreadLocalRandom.current().nextInt(ACCOUNTS);
        int to = (from + 1 + ThreadLocalRandom.current().nextInt(ACCOUNTS - 1)) % ACCOUNTS;
        return agent.play(step -> {
            List<Value> there = step.get(List.of(account(from), account(to)));
            step.push(Instruction.put(account(from), there.get(0).asLong() - 1),
                    Instruction.put(account(to), there.get(1).asLong() + 1),
                    Instruction.put(MARK, mark));
            return null;
        }).move();
    }

    private static SharedRun open(String target) throws InterruptedException {
        while (true)
            try {
                return SharedRun.open(opening(), target, 50);
            } catch (UncheckedIOException fault) {
                if (!(fault.getCause() instanceof ConnectException))
                    throw fault;
                Thread.sleep(100); // the server is started again
            }
    }

    private static void work(SharedRun run, int own, int times) {
        try (SharedAgent agent = run.agent(own)) {
            for (int done = 0; done < times; done++) {
                String mark = own + " " + ThreadLocalRandom.current().nextLong();
                long number = transfer(agent, mark);
                synchronized (System.out) {
                    System.out.println("[" + number + ", \"" + mark + "\"]");
                    System.out.flush();
                }
            }
        }
    }

    /** The target, the number of the first agent, of agents and of transfers of each. */
    public static void main(String[] words) throws Exception {
        int first = Integer.parseInt(words[1]);
        List<Thread> threads = new ArrayList<>();
        try (SharedRun run = open(words[0])) {
            for (int at = 0; at < Integer.parseInt(words[2]); at++) {
                int own = first + at;
                threads.add(new Thread(() -> work(run, own, Integer.parseInt(words[3]))));
            }
            threads.forEach(Thread::start);
            for (Thread thread : threads) thread.join();
        }
    }
}
