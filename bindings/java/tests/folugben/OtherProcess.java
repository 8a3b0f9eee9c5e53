package folugben;

import java.io.IOException;
import java.nio.file.Path;
import java.util.ArrayList;
import java.util.List;

/** What another process does with a run. */
final class OtherProcess {
    private OtherProcess() {}

    /** The command that runs another class of the tests. */
    static List<String> words(String main) {
        List<String> words = new ArrayList<>();
        words.add(Path.of(System.getProperty("java.home"), "bin", "java").toString());
        words.addAll(List.of("-XX:-UsePerfData", "-XX:+UseSerialGC", "-XX:TieredStopAtLevel=1"));
        for (String it : List.of("jna.library.path", "jna.boot.library.path", "folugben.library"))
            if (System.getProperty(it) != null)
                words.add("-D" + it + "=" + System.getProperty(it));
        words.addAll(List.of("-cp", System.getProperty("java.class.path"), main));
        return words;
    }

    /** Starts it with the words of a shell before its own. */
    static Process start(String before, String what, Path path) throws IOException {
        List<String> shell = new ArrayList<>(List.of("sh", "-c", before + "\"$@\"", "sh"));
        shell.addAll(words("folugben.OtherProcess"));
        shell.addAll(List.of(what, path.toString()));
        return new ProcessBuilder(shell).inheritIO().start();
    }

    /** Has a program of Python find the package that is tested, and the library. */
    static void forPython(ProcessBuilder builder) {
        builder.environment().put("PYTHONPATH", System.getProperty("folugben.python"));
        builder.environment().put("FOLUGBEN_LIBRARY",
                Path.of(System.getProperty("jna.library.path"), "libfolugben.so").toString());
    }

    /** Runs a program, which has to end well. */
    static void run(List<String> words) throws Exception {
        Process started = new ProcessBuilder(words)
                                  .redirectOutput(ProcessBuilder.Redirect.DISCARD)
                                  .redirectError(ProcessBuilder.Redirect.DISCARD)
                                  .start();
        if (started.waitFor() != 0)
            throw new IllegalStateException("failed: " + words);
    }

    private static void play(Path path, int kept) throws Exception {
        try (Run run = Run.open(ResumeTests.opening(), path, 20).keep(kept)) {
            RunTests.inThreads(run, 4, agent -> ResumeTests.work(agent, 10_000_000));
        }
    }

    /** Its first word says what is done, the second is the folder. */
    public static void main(String[] words) throws Exception {
        Path path = Path.of(words[1]);
        switch (words[0]) {
            case "resume" -> {
                Throwable error = ResumeTests.faultOf(() -> Run.resume(path));
                System.exit(error.getMessage().endsWith("another run uses the folder") ? 3 : 4);
            }
            case "fill" -> RunEndTests.fill(path);
            case "keep" -> play(path, 2);
            default -> play(path, Integer.MAX_VALUE);
        }
    }
}
