package folugben;

import static folugben.Test.Checks.equal;

import java.io.IOException;
import java.nio.charset.StandardCharsets;
import java.nio.file.Files;
import java.nio.file.Path;
import java.util.ArrayList;
import java.util.HashMap;
import java.util.HashSet;
import java.util.List;
import java.util.Map;
import java.util.Random;

/**
 * Kills processes that work on one shared run, for longer than a test may take.
 *
 * <p>Each third one is of Python if -Dfolugben.python names its package. Nothing that was answered
 * is lost or done twice.
 *
 * <p>usage: SharedKills sqlite|servers KILLS [PROCESSES AGENTS TIMES]; with servers it kills the
 * server too, now and then.
 */
final class SharedKills {
    private static final String PYTHON = System.getProperty("folugben.python");

    private final String target;
    private final int agents;
    private final int times;
    private final Random random = new Random();
    private final List<String> reports = new ArrayList<>();

    private SharedKills(String target, int agents, int times) {
        this.target = target;
        this.agents = agents;
        this.times = times;
    }

    /** A process that says on its output which moves were answered. */
    private Process start(int place) throws IOException {
        List<String> words = new ArrayList<>();
        boolean isPython = PYTHON != null && place % 3 == 2;
        words.addAll(isPython ? List.of("python3", PYTHON + "/tests/shared_bank.py")
                              : OtherProcess.words("folugben.SharedBank"));
        words.addAll(List.of(target, "" + agents * place, "" + agents, "" + times));
        ProcessBuilder builder = new ProcessBuilder(words);
        if (isPython)
            OtherProcess.forPython(builder);
        return builder.redirectError(ProcessBuilder.Redirect.INHERIT).start();
    }

    private void take(Process process) throws Exception {
        String all = new String(process.getInputStream().readAllBytes(), StandardCharsets.UTF_8);
        all.lines().filter(it -> it.endsWith("]")).forEach(reports::add);
        process.waitFor();
    }

    private void kill(int kills, int processes, Server server) throws Exception {
        Process[] alive = new Process[processes];
        try {
            for (int place = 0; place < processes; place++) alive[place] = start(place);
            kill(alive, kills, server);
        } finally {
            for (Process process : alive)
                if (process != null)
                    process.destroyForcibly();
        }
    }

    private void kill(Process[] alive, int kills, Server server) throws Exception {
        for (int left = kills; left > 0; left--) {
            Thread.sleep(500 + random.nextInt(2000));
            if (server != null && random.nextInt(3) == 0) {
                server.stop();
                server.start();
            }
            int place = random.nextInt(alive.length);
            alive[place].toHandle().destroyForcibly(); // that of the process closes its output
            take(alive[place]);
            alive[place] = start(place);
        }
        for (Process process : alive) {
            take(process);
            equal(process.exitValue(), 0);
        }
    }

    /** Each answered move is in the run once, with its number, and each state has the sum. */
    private String checkRun() {
        List<String> marks = new ArrayList<>();
        byte[] text = SharedTests.saved(target);
        for (String journal : new String(text, StandardCharsets.UTF_8).split("(?m)(?=^\\{\"agents\":)"))
            Journals.states(journal).map(Journals.Moment::values).forEach(state -> {
                long sum = 0;
                for (int own = 0; own < SharedBank.ACCOUNTS; own++)
                    sum += state.get(SharedBank.account(own)).asLong();
                equal(sum, SharedBank.ACCOUNTS * SharedBank.MONEY);
                Value mark = state.get(SharedBank.MARK);
                String own = mark == null ? "" : mark.asText();
                if (marks.isEmpty() || !marks.get(marks.size() - 1).equals(own))
                    marks.add(own); // a segment opens with the state before it
            });
        equal(new HashSet<>(marks).size(), marks.size());
        Map<Long, String> answered = new HashMap<>();
        for (String line : reports) {
            String[] both = line.substring(1, line.length() - 1).split(", ", 2);
            equal(answered.put(Long.parseLong(both[0]), both[1]) == null, true);
        }
        answered.forEach((number, mark) -> equal("\"" + marks.get((int) (long) number) + "\"", mark));
        Auditor.Counts counts = SharedRun.audit(target);
        equal(counts.moves(), marks.size() - 1);
        try (SharedRun one = SharedRun.join(target); SharedRun late = SharedRun.join(target)) {
            equal(one.state(), late.state());
        }
        return counts + ", " + answered.size() + " of them answered";
    }

    /** What the run came to after so many kills. */
    static String run(String target, Server server, int kills, int processes, int agents, int times)
            throws Exception {
        SharedKills own = new SharedKills(target, agents, times);
        own.kill(kills, processes, server);
        return own.checkRun();
    }

    /** Kills as the words say. */
    public static void main(String[] words) throws Exception {
        int[] numbers = {50, 8, 4, 20};
        for (int at = 1; at < words.length; at++) numbers[at - 1] = Integer.parseInt(words[at]);
        if (words[0].equals("servers"))
            try (Server server = new Server()) {
                System.out.println(run(server.target("killed"), server, numbers[0], numbers[1],
                        numbers[2], numbers[3]));
            }
        else {
            Path room = Files.createTempDirectory("shared");
            try {
                System.out.println(run(room + "/bank.db", null, numbers[0], numbers[1], numbers[2],
                        numbers[3]));
            } finally {
                RunTests.drop(room);
            }
        }
    }
}
