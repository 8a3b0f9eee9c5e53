import folugben.Agent;
import folugben.Location;
import folugben.Move;
import folugben.PreparedLocation;
import folugben.Step;
import folugben.Storage;

import java.util.HashMap;
import java.util.Map;

/** The step by the library, without text: each thread has its locations and its move. */
final class Plain implements Side {
    private Storage storage;
    private final Agent[] agents = new Agent[Bench.THREADS];
    private final Move[] moves = new Move[Bench.THREADS];
    private final PreparedLocation[][] places =
            new PreparedLocation[Bench.THREADS][Bench.LOCATIONS];

    @Override
    public void open(int capacity) {
        Map<Location, Integer> init = new HashMap<>();
        for (int i = 0; i < Bench.LOCATIONS; i++) init.put(Location.of("x", i), 0);
        storage = Storage.open(init, capacity);
        for (int i = 0; i < Bench.THREADS; i++) {
            agents[i] = storage.agent(i);
            moves[i] = new Move();
            for (int j = 0; j < Bench.LOCATIONS; j++)
                places[i][j] = Location.of("x", j).prepare();
        }
    }

    @Override
    public boolean step(int thread, int location) {
        PreparedLocation at = places[thread][location];
        try (Step step = agents[thread].step()) {
            step.push(moves[thread].clear().put(at, step.getLong(at) + 1));
            return step.tryCommit().move() != 0;
        }
    }

    @Override
    public long close() {
        long sum = 0;
        try (Step step = agents[0].step()) {
            for (PreparedLocation at : places[0]) sum += step.getLong(at);
        }
        for (int i = 0; i < Bench.THREADS; i++) {
            for (PreparedLocation at : places[i]) at.close();
            moves[i].close();
            agents[i].close();
        }
        storage.close();
        return sum;
    }
}
