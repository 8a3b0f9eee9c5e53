package folugben;

import com.sun.jna.Native;
import com.sun.jna.NativeLibrary;

import java.io.IOException;
import java.nio.charset.Charset;
import java.nio.file.AccessDeniedException;
import java.nio.file.FileSystemException;
import java.nio.file.NoSuchFileException;
import java.nio.file.Path;
import java.util.Arrays;

/** Calls of the system that Java doesn't have: locks that belong to an open file. */
final class Posix {
    /** The flags of open to read and write, and to close the file in another program. */
    static final int READ_AND_WRITE = 0x80002;
    /** The same flags, which also make a missing file, and follow no link. */
    static final int MADE_WITHOUT_LINKS = READ_AND_WRITE | 0x40 | 0x20000 | 0x800;
    /** The flag that follows no link. */
    static final int NO_LINKS = 0x20000;
    /** The flags of open to read, without a wait for a pipe's writer, and to take no terminal. */
    static final int READ_AT_ONCE = 0x80000 | 0x800 | 0x100;
    /** The errno if a lock is another's. */
    static final int WOULD_WAIT = 11;

    private static final int IS_NOT_THERE = 2;
    private static final int IS_NOT_ALLOWED = 13;
    private static final int IS_A_LINK = 40;
    private static final int FOR_THE_OWNER = 0600;

    private Posix() {}

    static int call(String name, Object... words) {
        return NativeLibrary.getInstance("c").getFunction(name).invokeInt(words);
    }

    /** Opens a file, and returns its descriptor. */
    static int open(Path path, int flags) throws IOException {
        byte[] name = path.toAbsolutePath().toString().getBytes(
                Charset.forName(System.getProperty("sun.jnu.encoding", "UTF-8")));
        int descriptor = call("open", Arrays.copyOf(name, name.length + 1), flags, FOR_THE_OWNER);
        if (descriptor >= 0)
            return descriptor;
        int number = Native.getLastError();
        throw switch (number) {
            case IS_NOT_THERE -> new NoSuchFileException(path.toString());
            case IS_NOT_ALLOWED -> new AccessDeniedException(path.toString());
            case IS_A_LINK -> new FileSystemException(path.toString(), null, "no regular file");
            default -> fault(path, "opened", number);
        };
    }

    /** Returns the exception of a call on a file that failed with this errno. */
    static FileSystemException fault(Path path, String what, int number) {
        return new FileSystemException(
                path.toString(), null, "it can't be " + what + " (errno " + number + ")");
    }
}
