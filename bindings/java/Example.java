import folugben.Agent;
import folugben.Instruction;
import folugben.Location;
import folugben.Storage;
import folugben.Value;
import java.nio.charset.StandardCharsets;
import java.nio.file.Files;
import java.nio.file.Path;
import java.util.Map;
import java.util.TreeMap;

/**
 * A bank: eight agents on threads transfer money between accounts, each transfer by the two moves
 * of a step, of which the second sees what the first left. The sum stays, and the journal is legal.
 * With an argument the journal is written to that file.
 */
public final class Example {
    static final int AGENTS = 8;
    static final int ACCOUNTS = 5;
    static final int TIMES = 200;
    static final int OPENING = 100;

    private Example() {}

    static void require(boolean holds, String what) {
        if (!holds)
            throw new IllegalStateException("not so: " + what);
    }

    static Location account(int number) {
        return Location.of("account", number);
    }

    /** Transfers the amount, or what is there of it; again, if another agent was quicker. */
    static void transfer(Agent agent, Location from, Location to, long amount) {
        agent.play(step -> {
            long there = step.get(from).asLong();
            long moved = Math.min(amount, there);
            step.push(Instruction.put(from, there - moved));
            step.push(Instruction.put(to, step.get(to).asLong() + moved));
            return moved;
        });
    }

    static void work(Agent agent, int own) {
        for (int done = 0; done < TIMES; done++) {
            // Sometimes from an account to itself.
            Location from = account((own + done) % ACCOUNTS);
            Location to = account((own + 3 * done) % ACCOUNTS);
            transfer(agent, from, to, 1 + done % 70);
        }
    }

    /** The sum of the accounts, which are all that the state has. */
    static long sum(Map<Location, Value> state) {
        require(state.size() == ACCOUNTS, "all accounts are there");
        return state.values().stream().mapToLong(Value::asLong).sum();
    }

    static Map<Location, Integer> opening() {
        Map<Location, Integer> state = new TreeMap<>();
        for (int i = 0; i < ACCOUNTS; i++) state.put(account(i), OPENING);
        return state;
    }

    /** The journal of eight threads, checked. */
    static String play() throws InterruptedException {
        try (Storage storage = Storage.open(opening(), AGENTS * TIMES)) {
            Agent[] agents = new Agent[AGENTS];
            Thread[] threads = new Thread[AGENTS];
            for (int i = 0; i < AGENTS; i++) {
                Agent agent = agents[i] = storage.agent(i);
                int own = i;
                threads[i] = new Thread(() -> work(agent, own));
            }
            for (Thread thread : threads) thread.start();
            for (Thread thread : threads) thread.join();
            require(agents[0].follow() == AGENTS * TIMES, "all moves are seen");
            require(sum(agents[0].scan("account").values()) == ACCOUNTS * OPENING, "the sum stays");
            for (Agent agent : agents) {
                require(agent.won() == TIMES, "each agent fired so many moves");
                agent.give();
            }
            String journal = storage.closeJournal();
            require(Storage.check(journal).moves() == AGENTS * TIMES, "the journal has all moves");
            require(sum(Storage.replayed(journal)) == ACCOUNTS * OPENING, "they leave the sum");
            return journal;
        }
    }

    public static void main(String[] arguments) throws Exception {
        String journal = play();
        System.out.println("legal " + Storage.check(journal).moves());
        if (arguments.length > 0)
            Files.write(Path.of(arguments[0]), journal.getBytes(StandardCharsets.UTF_8));
    }
}
