/** The step by the twin. */
final class Theirs implements Side {
    private Twin storage;

    @Override
    public void open(int moves) {
        storage = new Twin();
        for (int i = 0; i < Bench.LOCATIONS; i++) storage.open(new Twin.Location("x", i), 0L);
    }

    @Override
    public boolean step(int thread, int location) {
        Twin.Step step = storage.step(thread);
        Twin.Location at = new Twin.Location("x", location);
        try {
            step.push(at, step.get(at) + 1);
            return step.fire();
        } catch (Twin.Moved moved) {
            return false;
        }
    }

    @Override
    public long close() {
        Twin.Step step = storage.step(0);
        long sum = 0;
        for (int i = 0; i < Bench.LOCATIONS; i++) sum += step.get(new Twin.Location("x", i));
        if (storage.events() < sum)
            throw new IllegalStateException("a fire isn't in the history");
        return sum;
    }
}
