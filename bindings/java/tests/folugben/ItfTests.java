package folugben;

import static folugben.Test.Checks.equal;
import static folugben.Test.Checks.refused;
import static folugben.Test.Checks.thrown;

import java.io.IOException;
import java.io.UncheckedIOException;
import java.io.Writer;
import java.util.Locale;

/** Tests of the Informal Trace Format: the texts are those that Python's package writes. */
final class ItfTests {
    /** A run with each kind of value and of change, at locations with and without arguments. */
    private static final String RUN = """
            {"agents":2,"capacity":10,"events":8,"init":[[["b"],{"bag":[["e",2],["f",1]]}],[["s"],{"set":[1,\
            2]}],[["z"],{"list":[null,{"list":[false,-9007199254740993]}]}],[["z",2],true],[["z","a;\
            \u00e9\ud83d\ude00\177\\u0001\\n\\"\\\\<",1],"x"]],"version":2}
            {"agent":0,"call":{"fire":[["add",["s"],3],["add",["s"],"a"],["remove",["s"],1],["bagadd",["b"],\
            "e",3],["bagremove",["b"],"f",1],["bagadd",["b"],null,4294967295]],"reads":[]},"reply":{"fired":\
            1}}
            {"agent":1,"call":{"read":[["s"]]},"reply":{"number":1,"values":[{"set":[2,3,"a"]}]}}
            {"agent":1,"call":{"fire":[["put",["z","a"],null],["put",["z",2],{"list":[]}],["put",["n"],-9223\
            372036854775808]],"reads":[]},"reply":{"fired":2}}
            {"agent":0,"call":{"fire":[["put",["s"],null],["put",["b"],7],["put",["z",1],{"set":[]}]],"reads\
            ":[]},"reply":{"fired":3}}
            {"agent":0,"call":{"fire":[],"reads":[]},"reply":{"fired":4}}
            {"agent":0,"call":{"fire":[["put",["s"],{"set":[null,true,{"list":["x",1]}]}],["put",["b"],{"bag\
            ":[]}]],"reads":[]},"reply":{"fired":5}}
            {"agent":1,"call":{"fire":[["bagadd",["b"],false,1],["add",["s"],false],["bagadd",["b"],"e",1]],\
            "reads":[]},"reply":{"fired":6}}
            {"agent":1,"call":{"fire":[["bagadd",["b"],false,1],["add",["s"],0],["remove",["s"],null]],"read\
            s":[]},"reply":{"fired":7}}
            """;

    /** What Python's `folugben itf` writes of it. */
    private static final String STATES = """
            {"#meta":{"format":"ITF","format-description":"https://apalache-mc.org/docs/adr/015adr-trace.htm\
            l","source":""},"vars":["b","n","s","z"],"states":[{"#meta":{"index":0},"b":{"#map":[[{"#tup":[]\
            },{"#map":[["e",{"#bigint":"2"}],["f",{"#bigint":"1"}]]}]]},"n":{"#map":[]},"s":{"#map":[[{"#tup\
            ":[]},{"#set":[{"#bigint":"1"},{"#bigint":"2"}]}]]},"z":{"#map":[[{"#tup":[]},[{},[false,{"#bigi\
            nt":"-9007199254740993"}]]],[{"#tup":[{"#bigint":"2"}]},true],[{"#tup":["a;\
            \u00e9\ud83d\ude00\177\\u0001\\u000a\\u0022\\u005c<",{"#bigint":"1"}]},"x"]]}},
            {"#meta":{"index":1,"agent":0},"b":{"#map":[[{"#tup":[]},{"#map":[[{},{"#bigint":"4294967295"}],\
            ["e",{"#bigint":"5"}]]}]]},"n":{"#map":[]},"s":{"#map":[[{"#tup":[]},{"#set":[{"#bigint":"2"},{"\
            #bigint":"3"},"a"]}]]},"z":{"#map":[[{"#tup":[]},[{},[false,{"#bigint":"-9007199254740993"}]]],[\
            {"#tup":[{"#bigint":"2"}]},true],[{"#tup":["a;\
            \u00e9\ud83d\ude00\177\\u0001\\u000a\\u0022\\u005c<",{"#bigint":"1"}]},"x"]]}},
            {"#meta":{"index":2,"agent":1},"b":{"#map":[[{"#tup":[]},{"#map":[[{},{"#bigint":"4294967295"}],\
            ["e",{"#bigint":"5"}]]}]]},"n":{"#map":[[{"#tup":[]},{"#bigint":"-9223372036854775808"}]]},"s":{\
            "#map":[[{"#tup":[]},{"#set":[{"#bigint":"2"},{"#bigint":"3"},"a"]}]]},"z":{"#map":[[{"#tup":[]}\
            ,[{},[false,{"#bigint":"-9007199254740993"}]]],[{"#tup":["a;\
            \u00e9\ud83d\ude00\177\\u0001\\u000a\\u0022\\u005c<",{"#bigint":"1"}]},"x"],[{"#tup":[{"#bigint"\
            :"2"}]},[]]]}},
            {"#meta":{"index":3,"agent":0},"b":{"#map":[[{"#tup":[]},{"#bigint":"7"}]]},"n":{"#map":[[{"#tup\
            ":[]},{"#bigint":"-9223372036854775808"}]]},"s":{"#map":[]},"z":{"#map":[[{"#tup":[]},[{},[false\
            ,{"#bigint":"-9007199254740993"}]]],[{"#tup":["a;\
            \u00e9\ud83d\ude00\177\\u0001\\u000a\\u0022\\u005c<",{"#bigint":"1"}]},"x"],[{"#tup":[{"#bigint"\
            :"2"}]},[]],[{"#tup":[{"#bigint":"1"}]},{"#set":[]}]]}},
            {"#meta":{"index":4,"agent":0},"b":{"#map":[[{"#tup":[]},{"#bigint":"7"}]]},"n":{"#map":[[{"#tup\
            ":[]},{"#bigint":"-9223372036854775808"}]]},"s":{"#map":[]},"z":{"#map":[[{"#tup":[]},[{},[false\
            ,{"#bigint":"-9007199254740993"}]]],[{"#tup":["a;\
            \u00e9\ud83d\ude00\177\\u0001\\u000a\\u0022\\u005c<",{"#bigint":"1"}]},"x"],[{"#tup":[{"#bigint"\
            :"2"}]},[]],[{"#tup":[{"#bigint":"1"}]},{"#set":[]}]]}},
            {"#meta":{"index":5,"agent":0},"b":{"#map":[[{"#tup":[]},{"#map":[]}]]},"n":{"#map":[[{"#tup":[]\
            },{"#bigint":"-9223372036854775808"}]]},"s":{"#map":[[{"#tup":[]},{"#set":[{},true,["x",{"#bigin\
            t":"1"}]]}]]},"z":{"#map":[[{"#tup":[]},[{},[false,{"#bigint":"-9007199254740993"}]]],[{"#tup":[\
            "a;\u00e9\ud83d\ude00\177\\u0001\\u000a\\u0022\\u005c<",{"#bigint":"1"}]},"x"],[{"#tup":[{"#bigi\
            nt":"2"}]},[]],[{"#tup":[{"#bigint":"1"}]},{"#set":[]}]]}},
            {"#meta":{"index":6,"agent":1},"b":{"#map":[[{"#tup":[]},{"#map":[[false,{"#bigint":"1"}],["e",{\
            "#bigint":"1"}]]}]]},"n":{"#map":[[{"#tup":[]},{"#bigint":"-9223372036854775808"}]]},"s":{"#map"\
            :[[{"#tup":[]},{"#set":[{},true,["x",{"#bigint":"1"}],false]}]]},"z":{"#map":[[{"#tup":[]},[{},[\
            false,{"#bigint":"-9007199254740993"}]]],[{"#tup":["a;\
            \u00e9\ud83d\ude00\177\\u0001\\u000a\\u0022\\u005c<",{"#bigint":"1"}]},"x"],[{"#tup":[{"#bigint"\
            :"2"}]},[]],[{"#tup":[{"#bigint":"1"}]},{"#set":[]}]]}},
            {"#meta":{"index":7,"agent":1},"b":{"#map":[[{"#tup":[]},{"#map":[["e",{"#bigint":"1"}],[false,{\
            "#bigint":"2"}]]}]]},"n":{"#map":[[{"#tup":[]},{"#bigint":"-9223372036854775808"}]]},"s":{"#map"\
            :[[{"#tup":[]},{"#set":[true,["x",{"#bigint":"1"}],false,{"#bigint":"0"}]}]]},"z":{"#map":[[{"#t\
            up":[]},[{},[false,{"#bigint":"-9007199254740993"}]]],[{"#tup":["a;\
            \u00e9\ud83d\ude00\177\\u0001\\u000a\\u0022\\u005c<",{"#bigint":"1"}]},"x"],[{"#tup":[{"#bigint"\
            :"2"}]},[]],[{"#tup":[{"#bigint":"1"}]},{"#set":[]}]]}}]}
            """;

    /** What it writes from state 3 to state 5, of a source. */
    private static final String SOME = """
            {"#meta":{"format":"ITF","format-description":"https://apalache-mc.org/docs/adr/015adr-trace.htm\
            l","source":"a \\u0022run\\u0022\\u005c\\u000a"},"vars":["b","n","s","z"],"states":[{"#meta":{"i\
            ndex":3,"agent":0},"b":{"#map":[[{"#tup":[]},{"#bigint":"7"}]]},"n":{"#map":[[{"#tup":[]},{"#big\
            int":"-9223372036854775808"}]]},"s":{"#map":[]},"z":{"#map":[[{"#tup":[]},[{},[false,{"#bigint":\
            "-9007199254740993"}]]],[{"#tup":["a;\u00e9\ud83d\ude00\177\\u0001\\u000a\\u0022\\u005c<",{"#big\
            int":"1"}]},"x"],[{"#tup":[{"#bigint":"2"}]},[]],[{"#tup":[{"#bigint":"1"}]},{"#set":[]}]]}},
            {"#meta":{"index":4,"agent":0},"b":{"#map":[[{"#tup":[]},{"#bigint":"7"}]]},"n":{"#map":[[{"#tup\
            ":[]},{"#bigint":"-9223372036854775808"}]]},"s":{"#map":[]},"z":{"#map":[[{"#tup":[]},[{},[false\
            ,{"#bigint":"-9007199254740993"}]]],[{"#tup":["a;\
            \u00e9\ud83d\ude00\177\\u0001\\u000a\\u0022\\u005c<",{"#bigint":"1"}]},"x"],[{"#tup":[{"#bigint"\
            :"2"}]},[]],[{"#tup":[{"#bigint":"1"}]},{"#set":[]}]]}},
            {"#meta":{"index":5,"agent":0},"b":{"#map":[[{"#tup":[]},{"#map":[]}]]},"n":{"#map":[[{"#tup":[]\
            },{"#bigint":"-9223372036854775808"}]]},"s":{"#map":[[{"#tup":[]},{"#set":[{},true,["x",{"#bigin\
            t":"1"}]]}]]},"z":{"#map":[[{"#tup":[]},[{},[false,{"#bigint":"-9007199254740993"}]]],[{"#tup":[\
            "a;\u00e9\ud83d\ude00\177\\u0001\\u000a\\u0022\\u005c<",{"#bigint":"1"}]},"x"],[{"#tup":[{"#bigi\
            nt":"2"}]},[]],[{"#tup":[{"#bigint":"1"}]},{"#set":[]}]]}}]}
            """;

    /** A journal whose reply differs from that of a sequential storage. */
    private static final String ILLEGAL = """
            {"agents":1,"capacity":1,"events":1,"init":[[["a"],"x"]],"version":2}
            {"agent":0,"call":{"fire":[["put",["n"],1]],"reads":[]},"reply":{"fired":7}}
            """;

    /** What it writes of that. */
    private static final String ILLEGAL_STATES = """
            {"#meta":{"format":"ITF","format-description":"https://apalache-mc.org/docs/adr/015adr-trace.htm\
            l","source":""},"vars":["a","n"],"states":[{"#meta":{"index":0},"a":{"#map":[[{"#tup":[]},"x"]]}\
            ,"n":{"#map":[]}},
            {"#meta":{"index":1,"agent":0},"a":{"#map":[[{"#tup":[]},"x"]]},"n":{"#map":[[{"#tup":[]},{"#big\
            int":"1"}]]}}]}
            """;

    /** A journal without calls. */
    private static final String EMPTY = """
            {"agents":0,"capacity":1,"events":0,"init":[],"version":2}
            """;

    /** What it writes of that. */
    private static final String OPENING = """
            {"#meta":{"format":"ITF","format-description":"https://apalache-mc.org/docs/adr/015adr-trace.htm\
            l","source":""},"vars":[],"states":[{"#meta":{"index":0}}]}
            """;

    /** What it writes if no state is in the range. */
    private static final String NONE = """
            {"#meta":{"format":"ITF","format-description":"https://apalache-mc.org/docs/adr/015adr-trace.htm\
            l","source":""},"vars":["b","n","s","z"],"states":[]}
            """;

    private ItfTests() {}

    private static String written(String journal) {
        StringBuilder out = new StringBuilder();
        Journals.writeItf(journal, out);
        return out.toString();
    }

    private static String written(String journal, String source, long first, long last) {
        StringBuilder out = new StringBuilder();
        Journals.writeItf(journal, out, source, first, last);
        return out.toString();
    }

    private static void textsEqualThoseOfPython() {
        equal(written(RUN), STATES);
        equal(written(ILLEGAL), ILLEGAL_STATES);
        equal(written(EMPTY), OPENING);
    }

    private static void aRangeIsWritten() {
        equal(written(RUN, "a \"run\"\\\n", 3, 5), SOME);
        equal(written(RUN, "", 9, 3), NONE);
        equal(written(RUN, "", 8, Long.MAX_VALUE), NONE);
        equal(written(RUN, "", -1, 7), STATES);
        equal(written(RUN, "", 0, 6), STATES.substring(0, STATES.lastIndexOf(",\n")) + "]}\n");
    }

    /** The text of the states, without what is before and behind them, is as long as it may be. */
    private static void statesAreBounded() {
        String begin = "\"states\":[";
        String states = STATES.substring(STATES.indexOf(begin) + begin.length(), STATES.length() - 3);
        int length = states.codePointCount(0, states.length());
        StringBuilder out = new StringBuilder();
        ItfWriter.write(Storage.trace(RUN), out, "", 0, 7, length);
        equal(out.toString(), STATES);
        out.setLength(0);
        FolugbenException error = refused(Code.LONG_LINE,
                () -> ItfWriter.write(Storage.trace(RUN), out, "", 0, 7, length - 1));
        equal(error.getClass(), TooLongException.class);
        equal(error.getMessage(), Code.LONG_LINE.text() + ": the states of moves 0 to 7 have more than "
                + String.format(Locale.ROOT, "%,d", length - 1) + " characters: take fewer by first and last");
        equal(out.toString(), STATES.substring(0, STATES.lastIndexOf(",\n")));
        equal(ItfWriter.LIMIT, 1_073_741_824);
    }

    private static void refusedWithoutAText(Code code, String journal) {
        StringBuilder out = new StringBuilder();
        refused(code, () -> Journals.writeItf(journal, out));
        equal(out.length(), 0);
    }

    private static void textsThatAreNoJournalAreRefused() {
        refusedWithoutAText(Code.NOT_JSON, "{\n");
        refusedWithoutAText(Code.CUT, "");
        refusedWithoutAText(Code.CUT, RUN.substring(0, RUN.length() - 1));
        refusedWithoutAText(Code.SHAPE, RUN + "7\n");
        refusedWithoutAText(Code.VERSION, RUN.replace("\"version\":2", "\"version\":3"));
    }

    private static void argumentsAreChecked() {
        StringBuilder out = new StringBuilder();
        Class<? extends RuntimeException> kind = NullPointerException.class;
        thrown(kind, "journal", () -> Journals.writeItf(null, out));
        thrown(kind, "out", () -> Journals.writeItf(EMPTY, null));
        thrown(kind, "source", () -> Journals.writeItf(EMPTY, out, null, 0, 1));
        thrown(IllegalArgumentException.class, "source has a lone surrogate at index 1",
                () -> Journals.writeItf(EMPTY, out, "a\ud800", 0, 1));
        equal(out.length(), 0);
        thrown(UncheckedIOException.class, "java.io.IOException: full",
                () -> Journals.writeItf(EMPTY, new Full()));
    }

    /** A writer of a disk that is full. */
    private static final class Full extends Writer {
        @Override
        public void write(char[] text, int from, int length) throws IOException {
            throw new IOException("full");
        }

        @Override
        public void flush() {}

        @Override
        public void close() {}
    }

    static void all() {
        textsEqualThoseOfPython();
        aRangeIsWritten();
        statesAreBounded();
        textsThatAreNoJournalAreRefused();
        argumentsAreChecked();
        System.out.println("Informal Trace Format");
    }

    public static void main(String[] words) {
        all();
    }
}
