package folugben;

import static folugben.Test.Checks.equal;
import static folugben.Test.Checks.refused;
import static folugben.Test.Checks.thrown;

/** Tests of the texts that callers pass, and of what is said of those that are refused. */
final class TextTests {
    private TextTests() {}

    /** A lone surrogate isn't taken for the question mark that getBytes writes in its place. */
    static void surrogates() {
        String at = " has a lone surrogate at index ";
        Class<? extends RuntimeException> kind = IllegalArgumentException.class;
        try (Storage storage = new Storage("[[[\"k\",\"?\"],1],[[\"k\",\"\ud83d\ude00\"],2]]", 8);
                Agent agent = storage.agent(0)) {
            for (String lone :
                    new String[] {"\ud83d", "\ude00", "\ude00\ud83d", "\ud83d\ud83d\ude00"}) {
                String location = "[\"k\",\"" + lone + "\"]";
                String put = "[[\"put\"," + location + ",9]]";
                thrown(kind, "locations" + at + 7, () -> agent.read("[" + location + "]"));
                thrown(kind, "instructions" + at + 14, () -> agent.tryFire(put, "[]"));
                thrown(kind, "reads" + at + 8, () -> agent.tryFire("[]", "[[" + location + ",0]]"));
                thrown(kind, "init" + at + 8, () -> new Storage("[[" + location + ",1]]", 8));
                thrown(kind, "journal" + at + 0, () -> Storage.check(lone));
                thrown(kind, "journal" + at + 0, () -> Storage.replay(lone));
                thrown(kind, "locations" + at + 7, () -> agent.peek("[" + location + "]"));
                thrown(kind, "name" + at + 1, () -> agent.scan("k" + lone));
                thrown(kind, "reads" + at + 8, () -> agent.stands("[[" + location + ",0]]"));
                thrown(kind, "state" + at + 8,
                        () -> Moves.aggregate("[[" + location + ",1]]", "[]"));
                thrown(kind, "move" + at + 14, () -> Moves.aggregate("[]", put));
                thrown(kind, "first" + at + 14, () -> Moves.compose(put, "[]"));
                thrown(kind, "second" + at + 14, () -> Moves.compose("[]", put));
                try (Step step = agent.step()) {
                    thrown(kind, "locations" + at + 7, () -> step.get("[" + location + "]"));
                    thrown(kind, "name" + at + 1, () -> step.scan("k" + lone));
                    thrown(kind, "move" + at + 14, () -> step.push(put));
                    thrown(kind, "move" + at + 14, () -> step.extend(put));
                }
            }
            refused(Code.NOT_JSON, () -> agent.read("[[\"k\",\"\\ud83d\"]]"));
            refused(Code.NO_ANSWER, agent::answer);
            equal(agent.read("[[\"k\",\"\ud83d\ude00\"],[\"k\",\"\\ud83d\\ude00\"]]"),
                    "{\"number\":0,\"values\":[2,2]}");
        }
    }

    /** Neither the instructions nor the reads can be more than their part of the move. */
    static void parts() {
        String put = "[[\"put\",[\"x\"],1]]";
        String[] none = {"", " ", ",", "]", "}", "[", "[[]", "[]]", "[],[]", "[] []", "[]7", "7 7",
                "7,", "7:7", "[],\"fire\":" + put, "[],\"reads\":[]", "\"", "\"\\\"", "\"\"\"\"",
                "[\"]", "[]}", "[]} {", "[]\u0000", "\u00a0[]"};
        String[] wrong = {
                "7", "-1e9", "null", "{}", "\"[],\\\"fire\\\":[]\"", " true ", "{\"fire\":[]}"};
        String[] broken = {"[}", "{]", "nul", "[nul]", "[7 7]", "[,]", "[\"\\x\"]", "[\"\u0000\"]",
                "[\"\n\"]"};
        try (Storage storage = new Storage("[]", 8); Agent agent = storage.agent(0)) {
            for (String text : none) {
                String message = Code.NOT_JSON.text();
                thrown(FolugbenException.class, message + " (instructions)",
                        () -> agent.tryFire(text, "[]"));
                thrown(FolugbenException.class, message + " (reads)", () -> agent.tryFire(put, text));
            }
            for (String text : wrong) {
                refused(Code.SHAPE, () -> agent.tryFire(text, "[]"));
                refused(Code.SHAPE, () -> agent.tryFire(put, text));
            }
            for (String text : broken) {
                refused(Code.NOT_JSON, () -> agent.tryFire(text, "[]"));
                refused(Code.NOT_JSON, () -> agent.tryFire(put, text));
            }
            refused(Code.NO_ANSWER, agent::answer);
            equal(agent.seen(), 0);
            String spaced = " [ [\"put\",[\"x\"],\"],\\\"fire\\\":[\\\\\"] ]\r\n";
            equal(agent.tryFire(spaced, "\t[\n[ [\"x\"] , 0 ]]").move(), 1);
            equal(agent.read("[[\"x\"]]"), "{\"number\":1,\"values\":[\"],\\\"fire\\\":[\\\\\"]}");
        }
    }

    /** A zero character that isn't escaped ends no text. */
    static void zeros() {
        try (Storage storage = new Storage("[]", 8); Agent agent = storage.agent(0)) {
            refused(Code.NOT_JSON, () -> agent.read("[[\"k\",\"\u0000\"]]"));
            refused(Code.NOT_JSON, () -> agent.read("[]\u0000"));
            agent.give();
            String journal = storage.closeJournal();
            refused(Code.SHAPE, () -> Storage.check(journal + "\u0000"));
        }
    }

    static void all() {
        surrogates();
        System.out.println("surrogates");
        parts();
        System.out.println("parts");
        zeros();
        System.out.println("zeros");
    }
}
