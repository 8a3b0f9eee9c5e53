package folugben;

import com.sun.jna.Native;
import com.sun.jna.Pointer;

import java.lang.ref.Reference;
import java.nio.ByteBuffer;
import java.nio.charset.StandardCharsets;

/**
 * What the library knows of the folder of a run: the segments that were read, and those saved.
 *
 * <p>It makes no call of the system: it says which one comes next. Any thread may call it, in one
 * call at a time.
 */
final class RunCore implements AutoCloseable {
    private final RunSlot slot = new RunSlot();

    /** The slot, with what its calls are passed and return. */
    private static final class RunSlot extends Slot {
        private final Room room = new Room();
    }

    /** The call of the system that comes next, as the library says. */
    enum Request {
        REST,
        REMOVE_NEW,
        CREATE_NEW,
        WRITE_NEW,
        FLUSH_NEW,
        RENAME_NEW,
        FLUSH_FOLDER,
        REMOVE_OLDEST;

        private static final Request[] ALL = values();
    }

    /** A run of which nothing was read. */
    RunCore() {
        synchronized (slot) {
            expect(Calls.asm_run_open(slot.at));
        }
    }

    private static void expect(int code) {
        FolugbenException.expect(Code.of(code));
    }

    /** Takes the next name, of a text of so many bytes; {@link #found} has what it says. */
    Code name(String name, long bytes) {
        byte[] utf8 = name.getBytes(StandardCharsets.UTF_8);
        synchronized (slot) {
            return slot.room.make(utf8,
                    (text, out, length, written)
                            -> Calls.asm_run_name(
                                    slot.at, text, utf8.length, bytes, slot.room.numbers()));
        }
    }

    /** Returns the segment of the name that was taken last. */
    Segment found(String name) {
        synchronized (slot) {
            Room room = slot.room;
            return new Segment(room.wide(0), room.wide(1), room.wide(2), room.wide(3), name);
        }
    }

    /** Takes the next bytes of its text. */
    void text(byte[] piece, int length) {
        synchronized (slot) {
            FolugbenException.expect(slot.room.make(piece, 0, length,
                    (text, out, size, written) -> Calls.asm_run_text(slot.at, text, length)));
        }
    }

    /** Ends the text; {@link #counts} has the numbers of all texts, or those of its fault. */
    Code end() {
        synchronized (slot) {
            return Code.of(Calls.asm_run_end(slot.at, slot.room.numbers()));
        }
    }

    /** Returns what the last end of a text wrote. */
    Auditor.Counts counts() {
        synchronized (slot) {
            Room room = slot.room;
            return new Auditor.Counts(room.wide(0), room.wide(1), room.wide(2));
        }
    }

    /** Returns the state [PAIR, ..] that the texts leave. */
    String state() {
        synchronized (slot) {
            Code code = slot.room.make((text, out, length, written)
                                               -> Calls.asm_run_state(slot.at, out, length, written));
            FolugbenException.expect(code);
            return slot.room.text();
        }
    }

    /** Ends the segment of the last name, whose text isn't read. */
    void skip() {
        synchronized (slot) {
            expect(Calls.asm_run_skip(slot.at));
        }
    }

    /** Goes on after what was read: segments may be saved and dropped now. */
    void read() {
        synchronized (slot) {
            expect(Calls.asm_run_read(slot.at));
        }
    }

    /** Begins to save the next segment: returns the name of its file, or another code. */
    Calls.Result hand(ByteBuffer text, long moves, long events) {
        ByteBuffer own = text.slice();
        if (!own.isDirect()) {
            own = ByteBuffer.allocateDirect(text.remaining());
            own.put(text.duplicate()).flip();
        }
        return hand(own, Pointer.nativeValue(Native.getDirectBufferPointer(own)), moves, events);
    }

    /** To be called with the direct buffer that is at the address. */
    private Calls.Result hand(ByteBuffer text, long at, long moves, long events) {
        synchronized (slot) {
            Code code = slot.room.make(
                    (none, out, length, written)
                            -> Calls.asm_run_hand(
                                    slot.at, moves, events, at, text.limit(), out, length, written));
            Reference.reachabilityFence(text);
            return new Calls.Result(code, code == Code.DONE ? slot.room.text() : "");
        }
    }

    /** Begins to drop the oldest segment: returns its number. */
    long drop() {
        synchronized (slot) {
            expect(Calls.asm_run_drop(slot.at, slot.room.numbers()));
            return slot.room.wide(0);
        }
    }

    /** Returns the call of the system that comes next. */
    Request request() {
        synchronized (slot) {
            expect(Calls.asm_run_request(slot.at, slot.room.numbers()));
            return Request.ALL[slot.room.number(0)];
        }
    }

    /** Notes that this call was made. */
    void done() {
        synchronized (slot) {
            expect(Calls.asm_run_done(slot.at));
        }
    }

    /** Notes that this call failed: nothing more is saved or dropped. */
    void failed() {
        synchronized (slot) {
            expect(Calls.asm_run_failed(slot.at));
        }
    }

    /** Releases it; what is saved stays. */
    @Override
    public void close() {
        synchronized (slot) {
            Calls.asm_free(slot.at);
        }
    }
}
