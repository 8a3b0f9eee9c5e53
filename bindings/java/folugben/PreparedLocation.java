package folugben;

/**
 * A location that is prepared once, for any number of calls.
 *
 * <p>{@link Location#prepare} prepares one. The calls are of agents and steps of any storage, and
 * neither write its text nor read it.
 *
 * <p>Any thread may use it, in one call at a time: if several threads must go on beside each other,
 * prepare one for each of them. No garbage collector releases it: call close().
 */
public final class PreparedLocation implements AutoCloseable {
    /** Its slot, and the lock of calls on it, taken after an agent's and a move's. */
    final Slot slot = new Slot();

    private final String text;

    /**
     * Prepares the location LOC, a text.
     *
     * @throws FolugbenException NOT_JSON or SHAPE for a text that is no location
     */
    public PreparedLocation(String location) {
        byte[] bytes = Texts.utf8(location, "location");
        synchronized (slot) {
            Code code = Code.of(Calls.asm_location(bytes, bytes.length, slot.at));
            FolugbenException.expectLocation(code, location);
        }
        text = location;
    }

    /** Throws if the code of a call on it and on other slots isn't DONE. */
    void expect(Code code) {
        if (code == Code.EMPTY)
            synchronized (slot) {
                if (!slot.isFull())
                    throw FolugbenException.closed("the location was closed");
            }
        FolugbenException.expect(code);
    }

    /** Returns the location. */
    public Location location() {
        return Location.parse(text);
    }

    /** Returns a text such as x, or account(1, "a"). */
    @Override
    public String toString() {
        return location().toString();
    }

    /** Releases it. Moves that have instructions there keep them. */
    @Override
    public void close() {
        synchronized (slot) {
            Calls.asm_free(slot.at);
        }
    }
}
