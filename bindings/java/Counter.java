import folugben.Auditor;
import folugben.Instruction;
import folugben.Location;
import folugben.Run;
import folugben.RunAgent;
import java.nio.file.Files;
import java.nio.file.Path;
import java.util.Map;

/** An endless run: each start of this counts on in the folder that is named. */
public final class Counter {
    private static final Location COUNT = Location.of("count");

    public static void main(String[] words) {
        Path path = Path.of(words[0]);
        try (Run run = Files.exists(path) ? Run.resume(path) : Run.open(Map.of(COUNT, 0), path);
                RunAgent agent = run.agent(0)) {
            for (int done = 0; done < 1000; done++)
                agent.run(step -> // again, if others were quicker or a part is full
                        step.push(Instruction.inc(COUNT, 1)));
        }
        Auditor.Counts counts = Auditor.audit(path);
        System.out.println(counts.moves() + " moves in " + counts.parts() + " parts are legal");
    }
}
