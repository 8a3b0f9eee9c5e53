package folugben;

import com.sun.jna.Native;
import com.sun.jna.Pointer;

import java.nio.ByteBuffer;
import java.nio.ByteOrder;
import java.nio.charset.StandardCharsets;

/**
 * Native memory for the arguments and results of an agent's calls.
 *
 * <p>It is kept from call to call, grows to the longest text, and is for one call at a time. For an
 * array, JNA would make a copy for each call.
 */
final class Room {
    /** The place of what calls write: a text's length, numbers, a value's kind and number. */
    private static final int WRITTEN = 0;
    private static final int NUMBERS = 8;
    private static final int KIND = 32;
    private static final int NUMBER = 40;
    /** The place of the text that a call is passed, before the room for what it writes. */
    private static final int TEXT = 48;

    /** The kinds of values that calls without text return. */
    static final int UNDEF = 0;
    static final int BOOL = 1;
    static final int NUM = 2;
    static final int STRING = 3;
    static final int LIST = 4;
    static final int SET = 5;
    static final int BAG = 6;

    private static final byte[] NO_TEXT = {};

    private ByteBuffer bytes;
    private long at;
    /** The place where a call's text begins. */
    private int begin = TEXT;

    Room() {
        take(TEXT + 2 * Calls.ROOM);
    }

    private void reserve(long size) {
        if (size <= bytes.capacity())
            return;
        if (size > Calls.MOST)
            throw Calls.tooLong(size);
        take(Calls.room(Math.max(size, 2L * bytes.capacity())));
    }

    private void take(int size) {
        ByteBuffer taken = ByteBuffer.allocateDirect(size).order(ByteOrder.nativeOrder());
        long address = Pointer.nativeValue(Native.getDirectBufferPointer(taken));
        // Both or none, also if this thread is stopped.
        bytes = taken;
        at = address;
    }

    /** A call that is passed a text and writes one. */
    interface Call {
        int make(long text, long out, long room, long written);
    }

    /** Makes a call, again if the room for its text was too small; returns its code. */
    Code make(byte[] text, Call call) {
        return make(text, 0, text.length, call);
    }

    /** Makes such a call with a text that is a part of an array. */
    Code make(byte[] text, int offset, int length, Call call) {
        begin = TEXT + length;
        for (long size = (long) begin + Calls.ROOM;; size = begin + written()) {
            reserve(size);
            bytes.put(TEXT, text, offset, length);
            Code code = Code.of(
                    call.make(at + TEXT, at + begin, bytes.capacity() - begin, at + WRITTEN));
            if (code != Code.SMALL)
                return code;
        }
    }

    /** Makes such a call that is passed no text. */
    Code make(Call call) {
        return make(NO_TEXT, call);
    }

    /** Returns what such a call wrote. */
    Calls.Result resultOf(byte[] text, Call call) {
        Code code = make(text, call);
        return new Calls.Result(code, text());
    }

    /** Returns what such a call wrote that is passed no text. */
    Calls.Result resultOf(Call call) {
        return resultOf(NO_TEXT, call);
    }

    /** Returns the text that the last call wrote, which must be a call that writes one. */
    String text() {
        return text(0, (int) written());
    }

    /** Returns a part of that text, between two places in bytes. */
    String text(int from, int to) {
        if (from == to)
            return "";
        byte[] text = new byte[to - from];
        bytes.get(begin + from, text);
        return new String(text, StandardCharsets.UTF_8);
    }

    /** Returns the same as bytes, which stay until the next call. */
    ByteBuffer textBytes() {
        return bytes.slice(begin, (int) written());
    }

    /** Returns the length of the last call's text, or what else it has written there. */
    long written() {
        return bytes.getLong(WRITTEN);
    }

    /**
     * Returns the address of three numbers, of 32 or of 64 bits.
     *
     * <p>A fourth one may follow, in the place of a value's kind.
     */
    long numbers() {
        return at + NUMBERS;
    }

    /** Returns a number that the last call wrote: the first, the second or the third. */
    int number(int index) {
        return bytes.getInt(NUMBERS + Integer.BYTES * index);
    }

    /** Returns such a number of 64 bits; the fourth one too. */
    long wide(int index) {
        return bytes.getLong(NUMBERS + Long.BYTES * index);
    }

    /** Returns the address of a value. */
    long value() {
        return at + KIND;
    }

    /** Returns the kind of the value that the last call wrote there. */
    int kind() {
        return bytes.getInt(KIND);
    }

    /** Returns its number. */
    long number() {
        return bytes.getLong(NUMBER);
    }

    /** Returns the value itself. */
    Value readValue() {
        return valueOf(kind(), number(), kind() < STRING ? "" : text());
    }

    /** Returns the value of a kind, a number and a text. */
    static Value valueOf(int kind, long number, String text) {
        return switch (kind) {
            case UNDEF -> Element.undef();
            case BOOL -> new Element.Bool(number != 0);
            case NUM -> new Element.Num(number);
            case STRING -> new Element.Text(text);
            default -> Value.parse(text);
        };
    }
}
