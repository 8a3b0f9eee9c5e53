package folugben;

import java.util.List;
import java.util.Locale;
import java.util.stream.Collectors;

/**
 * Reports that a play hasn't ended after as many turns as it may take.
 *
 * <p>It may be that an agent waits for another.
 */
public final class EndlessException extends RuntimeException {
    private static final long serialVersionUID = 1;

    EndlessException(List<Integer> works, int turns) {
        super(String.format(Locale.ROOT,
                "%s still running after %,d turns: does one wait for another?",
                works.size() == 1 ? "agent " + works.get(0) + " is"
                                  : works.stream().map(String::valueOf).collect(
                                          Collectors.joining(", ", "agents ", " are")),
                turns));
    }
}
