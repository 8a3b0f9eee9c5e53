import folugben.Agent;
import folugben.Location;
import folugben.Move;
import folugben.PreparedLocation;
import folugben.Storage;
import java.util.Map;

/** Two tellers on threads each add 10 to one balance, a hundred times, and no deposit is lost. */
public final class Tellers {
    static void teller(Agent agent) {
        try (PreparedLocation at = Location.of("balance").prepare(); Move move = new Move()) {
            for (int done = 0; done < 100; done++)
                agent.run(step -> // again on conflict
                        step.push(move.clear().put(at, step.getLong(at) + 10)));
        }
    }

    public static void main(String[] words) throws InterruptedException {
        try (Storage storage = Storage.open(Map.of(Location.of("balance"), 0), 1000);
                PreparedLocation at = Location.of("balance").prepare();
                Agent anna = storage.agent(0); Agent ben = storage.agent(1)) {
            Thread other = new Thread(() -> teller(ben));
            other.start();
            teller(anna);
            other.join();
            anna.follow();
            Agent.Peeked left = anna.peek(at);
            anna.give(); // as closing it does, but here the journal is wanted before
            ben.give();
            Storage.check(storage.closeJournal());
            System.out.println(left.number() + " moves, balance " + left.value().asLong());
        }
    }
}
