package folugben_engine;

import folugben.Auditor;
import folugben.Journals;
import folugben.Run;
import java.io.IOException;
import java.nio.file.Files;
import java.nio.file.Path;
import java.util.List;
import java.util.stream.Stream;

/** Runs both machines, each on a run that is audited, and checks all states. */
public final class Main {
    private Main() {}

    /** Runs them; no words are taken. */
    public static void main(String[] words) throws IOException {
        for (Machine machine : List.of(new Bank(8, 50, 1), new Universe(8, 100, 2))) {
            Path folder = Files.createTempDirectory("engine");
            Path path = folder.resolve("engine.run");
            try {
                System.out.println(machine.getClass().getSimpleName() + ": " + playAndReport(machine, path));
            } finally {
                drop(folder);
            }
        }
    }

    private static String playAndReport(Machine machine, Path path) throws IOException {
        try (Run run = Run.open(machine.init(), path, 100, 100_000)) {
            Engine.onRun(run, machine);
        }
        Auditor.Counts counts = Auditor.audit(path);
        for (Path file : sorted(path))
            if (file.toString().endsWith(".journal"))
                expectEach(machine, file);
        return counts.moves() + " moves in " + counts.parts() + " parts are legal, and "
                + machine.claim();
    }

    private static void expectEach(Machine machine, Path file) throws IOException {
        if (!Journals.states(Files.readString(file)).allMatch(it -> machine.holds(it.values())))
            throw new IllegalStateException("not so: " + machine.claim());
    }

    /** Returns a folder and all that is in it, in order. */
    private static List<Path> sorted(Path folder) throws IOException {
        try (Stream<Path> all = Files.walk(folder)) {
            return all.sorted().toList();
        }
    }

    private static void drop(Path folder) throws IOException {
        List<Path> all = sorted(folder);
        for (int i = all.size(); i-- > 0;) Files.delete(all.get(i));
    }
}
