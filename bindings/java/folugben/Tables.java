package folugben;

import java.util.HashMap;
import java.util.List;
import java.util.Locale;
import java.util.Map;
import java.util.regex.Pattern;

/** The tables of a shared run, and what a row of each may hold. */
final class Tables {
    static final int FORMAT = 1;
    static final List<String> NAMES = List.of("run", "segment", "piece", "call");
    /** The tables; IN stands for the schema in which they are, with a point. */
    static final String ALL = """
            create table INrun(one integer primary key check (one = 1), format integer not null,
                moves integer not null, joined bigint not null);
            create table INsegment(number bigint primary key, first_move bigint not null,
                moves bigint not null, events bigint not null, digest text not null,
                length bigint not null, last_place bigint not null);
            create table INpiece(segment bigint not null references INsegment, place integer not null,
                data BLOB not null, primary key (segment, place));
            create table INcall(place bigint primary key, token BLOB not null unique,
                segment bigint not null, agent integer not null, call text not null,
                scans text not null)""";
    /** The calls after a place. */
    static final String SINCE = "select place, token, segment, agent, call, scans from INcall where place > ?"
            + " order by place limit ?";

    private static final Pattern DIGEST = Pattern.compile("[0-9a-f]{64}");

    private Tables() {}

    /**
     * Returns whether the schema of a file of SQLite has the tables of a run.
     *
     * <p>The rows are the type, the name and the text of each entry.
     *
     * @throws DamagedException if there is another table, a view or a trigger
     */
    static boolean areIn(List<Object[]> rows) {
        Map<Object, String> found = new HashMap<>();
        for (Object[] row : rows) {
            if (row[0].equals("index") && row[2] == null && ("" + row[1]).startsWith("sqlite_autoindex_"))
                continue;
            if (!row[0].equals("table") || !(row[2] instanceof String text))
                throw new DamagedException(0, "it has the " + row[0] + " " + row[1] + ", which no run has");
            found.put(row[1], plain(text));
        }
        Map<Object, String> wanted = new HashMap<>();
        String[] texts = ALL.replace("INsegment", "segment").replace("IN", "").split(";");
        for (int at = 0; at < texts.length; at++) wanted.put(NAMES.get(at), plain(texts[at]));
        if (!found.isEmpty() && !found.equals(wanted))
            throw new DamagedException(0, "it has other tables than a run");
        return !found.isEmpty();
    }

    private static String plain(String text) {
        return text.strip().replaceAll("\\s+", " ").toLowerCase(Locale.ROOT);
    }

    /** Throws a DamagedException unless a row is as it has to be. */
    static void expect(boolean isSo, long segment, String detail) {
        if (!isSo)
            throw new DamagedException(segment, detail);
    }

    /** Returns a whole number from 0 to the most. */
    static long count(Object value, long most, long segment) {
        boolean isCount = (value instanceof Long || value instanceof Integer)
                && ((Number) value).longValue() >= 0 && ((Number) value).longValue() <= most;
        expect(isCount, segment, "a row has no number where one has to be");
        return ((Number) value).longValue();
    }

    static long count(Object value, long segment) {
        return count(value, Long.MAX_VALUE, segment);
    }

    /** Returns a segment of its row, after another one. */
    static Segment segment(Object[] row, long number, Segment before) {
        expect(row[4] instanceof String text && DIGEST.matcher(text).matches(), number,
                "its row has no digest");
        return Segment.of(count(row[0], number), count(row[1], number), count(row[2], number),
                count(row[3], number), (String) row[4], before);
    }

    /** Returns a call of its row. */
    static SharedLog.LogEntry call(Object[] row) {
        expect(row[1] instanceof byte[] && row[4] instanceof String && row[5] instanceof String, 0,
                "the row of the call " + row[0] + " is no call");
        return new SharedLog.LogEntry(count(row[0], 0),
                new SharedLog.Call((byte[]) row[1], count(row[2], 0),
                        (int) count(row[3], Storage.AGENTS - 1, 0), (String) row[4], (String) row[5]));
    }
}
