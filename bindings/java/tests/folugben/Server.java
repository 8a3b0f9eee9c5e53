package folugben;

import java.io.IOException;
import java.net.ServerSocket;
import java.nio.file.Files;
import java.nio.file.Path;
import java.util.ArrayList;
import java.util.List;
import java.util.stream.Stream;

/** A PostgreSQL server of its own, in a temporary folder; as root it is another user's. */
final class Server implements AutoCloseable {
    private static final Path ALL = Path.of("/usr/lib/postgresql");

    final Path room;
    private final Path programs;
    private final int port;

    /** Whether Debian's server and its driver for Java are there. */
    static boolean isAvailable() throws IOException {
        try {
            Class.forName("org.postgresql.Driver");
        } catch (ClassNotFoundException none) {
            return false;
        }
        return Files.isDirectory(ALL) && programs() != null;
    }

    private static Path programs() throws IOException {
        try (Stream<Path> all = Files.list(ALL)) {
            return all.map(it -> it.resolve("bin")).filter(it -> Files.exists(it.resolve("initdb")))
                    .sorted().reduce((one, next) -> next).orElse(null);
        }
    }

    Server() throws Exception {
        programs = programs();
        room = Files.createTempDirectory("folugben-pg-");
        try (ServerSocket free = new ServerSocket(0)) {
            port = free.getLocalPort();
        }
        if (isRoot())
            OtherProcess.run(List.of("chown", "postgres", "" + room));
        call("initdb", "-D", room + "/data", "-A", "trust", "-U", "folugben", "--no-sync");
        start();
    }

    private static boolean isRoot() {
        return System.getProperty("user.name").equals("root");
    }

    private void call(String program, String... words) throws Exception {
        List<String> all = new ArrayList<>();
        if (isRoot())
            all.addAll(List.of("setpriv", "--reuid=postgres", "--regid=postgres", "--clear-groups"));
        all.add("" + programs.resolve(program));
        all.addAll(List.of(words));
        OtherProcess.run(all);
    }

    void start() throws Exception {
        call("pg_ctl", "-D", room + "/data", "-l", room + "/log", "-o",
                "-k " + room + " -p " + port + " -c listen_addresses=127.0.0.1"
                        + " -c max_connections=50 -c shared_buffers=16MB",
                "-w", "-t", "120", "start");
    }

    /** Stops it, as kill -9 does. */
    void stop() throws Exception {
        call("pg_ctl", "-D", room + "/data", "-m", "immediate", "-t", "120", "stop");
    }

    String target(String schema) {
        return "postgresql://folugben@127.0.0.1:" + port + "/postgres#" + schema;
    }

    @Override
    public void close() {
        try {
            stop();
            RunTests.drop(room);
        } catch (Exception fault) {
            throw new IllegalStateException(fault);
        }
    }
}
