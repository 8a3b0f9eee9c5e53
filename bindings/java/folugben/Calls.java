package folugben;

import com.sun.jna.Function;
import com.sun.jna.JNIEnv;
import com.sun.jna.Library;
import com.sun.jna.Native;
import com.sun.jna.NativeLibrary;
import com.sun.jna.Pointer;

import java.io.File;
import java.io.IOException;
import java.nio.charset.StandardCharsets;
import java.util.Map;

/**
 * The calls of include/folugben.h. A slot is passed as its address, by one who holds its lock, and
 * so are bytes and numbers in a {@link Room}, as an engine makes these calls at each step: JNA
 * takes longer for an object, and makes a copy of an array. A size_t is a long.
 */
final class Calls {
    /** The version of the library that these classes were written for. */
    static final int WRITTEN_FOR = 2000;
    /** The room for a text of unknown length. */
    static final int ROOM = 512;
    /** The most bytes of an array. */
    static final int MOST = Integer.MAX_VALUE - 8;

    static {
        Class<?> own = Calls.class;
        NativeLibrary library = library(libraryName(), "asm_version",
                Map.of(Library.OPTION_CLASSLOADER, own.getClassLoader()));
        Native.register(own, library);
        Quick.forget(own, library.getOptions());
        Quick.forget(own, Native.getLibraryOptions(own));
        expectVersion(asm_version());
        Quick.bind(own, library);
    }

    private Calls() {}

    /**
     * Returns the library with a name.
     *
     * <p>If no option says where it is, the one in the jar is preferred to those of the system, if
     * it is of the version that these classes were written for.
     */
    static NativeLibrary library(String name, String version, Map<String, Object> options) {
        boolean isNamed = name.contains("/") || System.getProperty("jna.library.path") != null;
        try {
            if (!isNamed) {
                File file = Native.extractFromResourcePath(name, Calls.class.getClassLoader());
                NativeLibrary found = NativeLibrary.getInstance(file.getPath(), options);
                // JNA's name for what it unpacks from a jar, which isn't needed once it is loaded.
                if (file.getName().matches("jna\\d+\\.tmp"))
                    file.delete();
                if (found.getFunction(version).invokeInt(new Object[0]) == WRITTEN_FOR)
                    return found;
            }
        } catch (IOException | UnsatisfiedLinkError error) {
            // The jar has none.
        }
        return NativeLibrary.getInstance(name, options);
    }

    /** The library's name or path: as folugben.library says, unless that is empty. */
    static String libraryName() {
        String name = System.getProperty("folugben.library", "");
        return name.isEmpty() ? "folugben" : name;
    }

    // Written by tools/declarations from bindings/calls.toml.
    static native int asm_error_text(int code, byte[] out, long room, long[] written);

    static native int asm_version();

    static native int asm_open(byte[] init, long len, int capacity, long storage);

    static native int asm_agent(long storage, int number, long agent);

    static native int asm_read(long agent, long locations, long len);

    static native int asm_try_fire_over(
            long agent, long call, long callLen, long scans, long scansLen, long numbers);

    static native int asm_answer(long agent, long out, long room, long written);

    static native int asm_learn(long agent, long other);

    static native int asm_take_state(long agent, long other);

    static native int asm_follow(long agent, long number);

    static native int asm_peek(
            long agent, long locations, long len, long out, long room, long written);

    static native int asm_state(long agent, long number, long out, long room, long written);

    static native int asm_scan(
            long agent, long name, long len, long number, long out, long room, long written);

    static native int asm_stands(
            long agent, long reads, long len, long out, long room, long written);

    static native int asm_begin(long agent, long step, long number);

    static native int asm_get(
            long agent, long step, long locations, long len, long out, long room, long written);

    static native int asm_see(
            long agent, long step, long locations, long len, long out, long room, long written);

    static native int asm_step_scan(
            long agent, long step, long name, long len, long out, long room, long written);

    static native int asm_push(
            long agent, long step, long move, long len, long out, long room, long written);

    static native int asm_extend(
            long agent, long step, long move, long len, long out, long room, long written);

    static native int asm_pop(long step);

    static native int asm_pop_move(long step, long move);

    static native int asm_depth(long step);

    static native int asm_offer(long step, long out, long room, long written);

    static native int asm_step_stands(long agent, long step, long out, long room, long written);

    static native int asm_commit(long agent, long step, long numbers);

    static native int asm_commit_recorded(long agent, long step, long numbers);

    static native int asm_location(byte[] location, long len, long at);

    static native int asm_peek_at(
            long agent, long at, long number, long value, long out, long room, long written);

    static native int asm_get_at(
            long agent, long step, long at, long value, long out, long room, long written);

    static native int asm_count_of(long agent, long step, long at, int kind, long number,
            long bytes, long len, long count);

    static native int asm_size(long agent, long step, long at, long size);

    static native int asm_any(long agent, long step, long name, long len, long any);

    static native int asm_count(long agent, long step, long name, long len, long count);

    static native int asm_instruct(long move, long at, int verb, int kind, long number,
            long bytes, long len, int amount);

    static native int asm_instruct(long move, long at, int verb, int kind, long number,
            byte[] bytes, long len, int amount);

    static native int asm_unite(long move, long other);

    static native int asm_move_length(long move);

    static native int asm_move_at(
            long move, int number, long found, long out, long room, long written);

    static native int asm_push_move(
            long agent, long step, long move, long out, long room, long written);

    static native int asm_extend_move(
            long agent, long step, long move, long out, long room, long written);

    static native int asm_seen(long agent);

    static native int asm_won(long agent);

    static native long asm_misses(long agent);

    static native int asm_moves(long storage, int[] moves);

    static native int asm_give(long storage, long agent);

    static native int asm_take(long storage, int number, long agent);

    static native int asm_close(long storage, int[] number);

    static native int asm_journal(long storage, byte[] out, long room, long[] written);

    static native int asm_journal(long storage, long out, long room, long written);

    static native int asm_next(long storage, int capacity, long next);

    static native int asm_go_on(long agent, int capacity, long next);

    static native void asm_free(long slot);

    static native int asm_check(byte[] journal, long len, long[] calls, int[] moves);

    static native int asm_audit(long audit, long bytes, long len, long taken, long told);

    static native int asm_audited(long audit, long told);

    static native int asm_audit_state(long audit, long out, long room, long written);

    static native int asm_run_open(long run);

    static native int asm_run_name(long run, long name, long len, long bytes, long found);

    static native int asm_run_text(long run, long bytes, long len);

    static native int asm_run_end(long run, long told);

    static native int asm_run_skip(long run);

    static native int asm_run_state(long run, long out, long room, long written);

    static native int asm_run_read(long run);

    static native int asm_run_hand(long run, long moves, long events, long text, long len,
            long out, long room, long written);

    static native int asm_run_drop(long run, long number);

    static native int asm_run_request(long run, long request);

    static native int asm_run_done(long run);

    static native int asm_run_failed(long run);

    static native int asm_run_saved(long run, long saved, long out, long room, long written);

    static native int asm_replay(
            byte[] journal, long len, byte[] out, long room, long[] written, long[] line);

    static native int asm_trace(
            byte[] journal, long len, byte[] out, long room, long[] written, long[] line);

    static native int asm_aggregate(byte[] state, long stateLen, byte[] move, long moveLen,
            byte[] out, long room, long[] written);

    static native int asm_compose(byte[] first, long firstLen, byte[] second, long secondLen,
            byte[] out, long room, long[] written);

    static native int asm_explain(
            int form, byte[] text, long len, byte[] out, long room, long[] written);
    // End of what tools/declarations writes.

    /** What asm_explain says of a text. */
    static String explain(Storage.Form form, byte[] bytes) {
        return text((out, room, written)
                            -> asm_explain(
                                    form.ordinal(), bytes, bytes.length, out, room, written),
                ROOM);
    }

    static void expectVersion(int version) {
        if (version != WRITTEN_FOR)
            throw new UnsatisfiedLinkError("libfolugben has version " + version
                    + ", and these classes were written for " + WRITTEN_FOR);
    }

    /** A call that writes a text into a buffer. */
    interface Writer {
        int write(byte[] out, long room, long[] written);
    }

    /** The room to begin with for a text of about so many bytes: what an array has at most. */
    static int room(long bytes) {
        return (int) Math.min(bytes, MOST);
    }

    static OutOfMemoryError tooLong(long bytes) {
        return new OutOfMemoryError(
                "a text of " + bytes + " bytes, and an array has at most " + MOST);
    }

    /** The code of a call, and the text that it wrote with it. */
    record Result(Code code, String text) {}

    /** Returns what a call writes to a buffer of this size, or else a larger one. */
    static Result resultOf(Writer call, int room) {
        byte[] out = new byte[room];
        long[] written = new long[1];
        Code code = Code.of(call.write(out, out.length, written));
        while (code == Code.SMALL) {
            if (written[0] > MOST)
                throw tooLong(written[0]);
            out = new byte[(int) written[0]];
            code = Code.of(call.write(out, out.length, written));
        }
        return new Result(code, new String(out, 0, (int) written[0], StandardCharsets.UTF_8));
    }

    /** The text of a call that is expected to be done. */
    static String text(Writer call, int room) {
        Result result = resultOf(call, room);
        FolugbenException.expect(result.code);
        return result.text;
    }

    /** A call on a journal that writes a text. */
    interface JournalCall {
        int answer(
                byte[] journal, long len, byte[] out, long room, long[] written, long[] line);
    }

    /** Returns what a call writes of a journal; with little room, all is done again. */
    static String ofJournal(String journal, int times, JournalCall call) {
        byte[] text = Texts.utf8(journal, "journal");
        long[] line = new long[1];
        return text((out, room, written) -> {
            Code code = Code.of(call.answer(text, text.length, out, room, written, line));
            if (code != Code.SMALL)
                FolugbenException.expectJournal(code, text, line[0]);
            return code.number();
        }, room((long) times * text.length));
    }

    /**
     * Lets the calls of a step bypass JNA, which takes longer than the call itself.
     *
     * <p>They go through a further library, bindings/java/quick.c, if JNA finds it.
     */
    static final class Quick {
        private static final String NAME = "folugben_quick";
        private static final Object[] NO_WORDS = {};
        /** Null if none of this version is there. It is kept, as JNA unloads unused ones. */
        private static final NativeLibrary LIBRARY = found();

        private Quick() {}

        static boolean isAvailable() {
            return LIBRARY != null;
        }

        private static NativeLibrary found() {
            try {
                NativeLibrary found = Calls.library(NAME, "folugben_quick_version",
                        Map.of(Library.OPTION_ALLOW_OBJECTS, true, Library.OPTION_CLASSLOADER,
                                Quick.class.getClassLoader()));
                forget(Quick.class, found.getOptions());
                // One of another version lies there by chance: JNA calls what these classes call.
                int version = found.getFunction("folugben_quick_version").invokeInt(NO_WORDS);
                return version == Calls.WRITTEN_FOR ? found : null;
            } catch (UnsatisfiedLinkError error) {
                return null;
            }
        }

        /**
         * Takes the class and its loader out of options that JNA keeps.
         *
         * <p>They were for finding the library. If JNA is in a parent of this loader, this one can
         * then be freed, once the class Calls is unregistered, to which JNA's own native code
         * refers until then.
         */
        static void forget(Class<?> own, Map<String, ?> options) {
            if (options != null)
                options.values().removeIf(loader -> loader == own || loader == own.getClassLoader());
        }

        /**
         * Binds methods of this class, which JNA bound before, to calls of the library.
         *
         * <p>If class loaders share the further library, it has the calls of the first libfolugben.
         */
        static void bind(Class<?> calls, NativeLibrary library) {
            if (!isAvailable())
                return;
            Function name = LIBRARY.getFunction("folugben_bindable");
            Function bind = LIBRARY.getFunction("folugben_bind");
            for (int index = 0;; index++) {
                String method = name.invokeString(new Object[] {index}, false);
                if (method == null)
                    return;
                Pointer call = library.getFunction(method);
                // 1: it has the calls of another libfolugben, so this one's go by JNA.
                if (bind.invokeInt(new Object[] {JNIEnv.CURRENT, calls, index, call}) < 0)
                    throw new UnsatisfiedLinkError(NAME + " can't bind " + method);
            }
        }
    }
}
