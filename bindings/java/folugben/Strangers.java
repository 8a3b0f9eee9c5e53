package folugben;

import java.io.IOException;
import java.io.InputStream;
import java.net.URLDecoder;
import java.nio.channels.Channels;
import java.nio.channels.FileChannel;
import java.nio.charset.StandardCharsets;
import java.nio.file.FileSystemException;
import java.nio.file.Files;
import java.nio.file.LinkOption;
import java.nio.file.NoSuchFileException;
import java.nio.file.Path;
import java.nio.file.StandardCopyOption;
import java.nio.file.StandardOpenOption;
import java.nio.file.attribute.FileAttribute;
import java.nio.file.attribute.PosixFileAttributes;
import java.nio.file.attribute.PosixFilePermission;
import java.security.SecureRandom;
import java.util.Set;
import java.util.regex.Pattern;

/** Files that others may have made: how they are read, named, and replaced by an output. */
final class Strangers {
    private static final Pattern PASSWORD = Pattern.compile("(?<=://)([^/:@]*):[^/]*@");
    private static final Pattern WORD = Pattern.compile("(?<=[?&])([^=&#]*)=[^&#]*");

    private static final SecureRandom RANDOM = new SecureRandom();

    private Strangers() {}

    /**
     * Opens a regular file to read, which waits for no writer of a pipe.
     *
     * @throws FileSystemException if it is a pipe, a folder or a device
     */
    static FileChannel channel(Path path, LinkOption... links) throws IOException {
        int descriptor = Posix.open(path, Posix.READ_AT_ONCE | (links.length > 0 ? Posix.NO_LINKS : 0));
        try {
            Path opened = Path.of("/proc/self/fd/" + descriptor);
            if (!Files.isRegularFile(opened))
                throw new FileSystemException(path.toString(), null, "no regular file");
            return FileChannel.open(opened, StandardOpenOption.READ);
        } finally {
            Posix.call("close", descriptor);
        }
    }

    /** Opens such a file as a stream. */
    static InputStream stream(Path path) throws IOException {
        return Channels.newInputStream(channel(path));
    }

    /** Returns the name of a run without the password that the name of a server may have. */
    static String shown(String target) {
        if (!target.contains("://"))
            return target;
        String bare = PASSWORD.matcher(target).replaceFirst("$1:***@");
        return WORD.matcher(bare).replaceAll(word -> isSecret(word.group(1)) ? "$1=***" : "$0");
    }

    private static boolean isSecret(String word) {
        try {
            return URLDecoder.decode(word, StandardCharsets.UTF_8).toLowerCase().contains("password");
        } catch (IllegalArgumentException none) {
            return true;
        }
    }

    /**
     * Writes a file that has the name only once it is complete.
     *
     * <p>It is written beside, and renamed. An earlier file is as it was if that fails.
     *
     * @throws FileSystemException if there is a link, a pipe or a folder by that name
     */
    static void replace(Path path, String text) throws IOException {
        Set<PosixFilePermission> mode = modeOf(path);
        Path beside = path.toAbsolutePath().resolveSibling(
                ".folugben-" + Long.toHexString(RANDOM.nextLong()));
        FileAttribute<?>[] modes = mode == null ? new FileAttribute<?>[0]
                                                : new FileAttribute<?>[] {RunFolder.FileGuard.OWN};
        try {
            Files.createFile(beside, modes);
            Files.writeString(beside, text);
            RunFolder.force(beside);
            if (mode != null)
                Files.setPosixFilePermissions(beside, mode);
            Files.move(beside, path, StandardCopyOption.ATOMIC_MOVE);
        } catch (IOException | RuntimeException | Error fault) {
            Files.deleteIfExists(beside);
            throw fault;
        }
    }

    /** Returns the mode of the file that is replaced; null if there is none. */
    private static Set<PosixFilePermission> modeOf(Path path) throws IOException {
        try {
            PosixFileAttributes there = Files.readAttributes(
                    path, PosixFileAttributes.class, LinkOption.NOFOLLOW_LINKS);
            if (there.isRegularFile())
                return there.permissions();
        } catch (NoSuchFileException none) {
            return null;
        }
        throw new FileSystemException(path.toString(), null, "is there, and is no regular file");
    }
}
