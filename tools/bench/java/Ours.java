import folugben.Agent;
import folugben.Step;
import folugben.Storage;

/** The step by the library, with texts. */
final class Ours implements Side {
    private Storage storage;
    private final Agent[] agents = new Agent[Bench.THREADS];

    @Override
    public void open(int moves) {
        StringBuilder init = new StringBuilder();
        for (int i = 0; i < Bench.LOCATIONS; i++)
            init.append(i == 0 ? "[" : ",").append("[[\"x\",").append(i).append("],0]");
        storage = new Storage(init.append("]").toString(), moves);
        for (int i = 0; i < Bench.THREADS; i++) agents[i] = storage.agent(i);
    }

    /** What the step sees at the location, of the text {"number":N,"values":[VALUE]}. */
    private static long get(Step step, int location) {
        String text = step.get("[[\"x\"," + location + "]]");
        return Long.parseLong(text, text.lastIndexOf('[') + 1, text.length() - 2, 10);
    }

    @Override
    public boolean step(int thread, int location) {
        try (Step step = agents[thread].step()) {
            long value = get(step, location);
            step.push("[[\"put\",[\"x\"," + location + "]," + (value + 1) + "]]");
            Agent.Reply reply = step.tryCommit();
            if (!reply.isFired() && !reply.shouldRetry())
                throw new IllegalStateException("the step was answered " + reply);
            return reply.isFired();
        }
    }

    @Override
    public long close() {
        long sum = 0;
        try (Step step = agents[0].step()) {
            for (int i = 0; i < Bench.LOCATIONS; i++) sum += get(step, i);
        }
        for (Agent agent : agents) agent.close();
        storage.close();
        return sum;
    }
}
