/** One that does the work that is measured: the library or the twin. */
interface Side {
    /** Opens a storage for so many moves, with 0 at each location, and agents for the threads. */
    void open(int moves);

    /**
     * Begins a step of the thread's agent, gets the location with this number, pushes that 1 is
     * added there, and fires; whether it fired: otherwise it was stale, and must be done again.
     */
    boolean step(int thread, int location);

    /** The sum of all locations; the storage is released. */
    long close();
}
