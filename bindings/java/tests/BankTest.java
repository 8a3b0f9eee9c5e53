import static org.junit.jupiter.api.Assertions.assertEquals;
import static org.junit.jupiter.api.Assertions.assertTrue;

import folugben.Agent;
import folugben.Explorer;
import folugben.Instruction;
import folugben.Interleave;
import folugben.Location;
import folugben.Reading;
import folugben.Storage;
import folugben.Value;
import java.util.Collections;
import java.util.List;
import java.util.Map;
import org.junit.jupiter.api.Test;

class BankTest {
    private static Location account(int own) {
        return Location.of("account", own % 3);
    }

    private static Explorer exploring(Interleave.Work<Agent, Object> transfer) {
        Map<Location, Integer> init = Map.of(account(0), 50, account(1), 50, account(2), 50);
        return Explorer.of(() -> Storage.open(init, 100), Collections.nCopies(3, transfer))
                .invariant(state -> state.values().stream().mapToLong(Value::asLong).sum() == 150);
    }

    private static Object blind(Agent agent) {
        Location here = account(agent.number()), there = account(agent.number() + 1);
        Reading read = agent.read(List.of(here, there));
        long mine = read.value(here).asLong(), theirs = read.value(there).asLong();
        return agent.fire(List.of(Instruction.put(here, mine - 10), // names nothing that it read
                Instruction.put(there, theirs + 10)), List.of());
    }

    @Test
    void aBlindTransferIsFound() {
        Explorer.Explored explored = exploring(BankTest::blind).explore();
        assertEquals(List.of(0, 0, 1), explored.finding().orElseThrow().turns());
    }

    private static Object guarded(Agent agent) {
        Location here = account(agent.number()), there = account(agent.number() + 1);
        return agent.play(step -> {
            long mine = step.get(here).asLong(), theirs = step.get(there).asLong();
            step.push(Instruction.put(here, mine - 10), Instruction.put(there, theirs + 10));
            return null;
        });
    }

    @Test
    void aTransferKeepsTheSum() {
        Explorer.Explored explored = exploring(BankTest::guarded).explore();
        assertTrue(explored.isExhaustive(), explored::toString);
    }
}
