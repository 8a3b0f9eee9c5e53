package folugben;

import java.util.Locale;

/** Why updates of one location clash; of several causes it is the first of these. */
public enum Cause {
    /** Two different values are put. */
    TWO,
    /** Partial updates of two of these: sets, bags, numbers. */
    MIXED,
    /** The present value is no set, no bag or no number. */
    KIND,
    /** An element is added to a set and removed from it. */
    BOTH,
    /** A value is put that contradicts the partial updates. */
    AGAINST,
    /** More of an element is removed than the bag has. */
    SHORT,
    /** A count would be above 4294967295, or a number outside the range of a long. */
    LARGE;

    /** Returns the cause of a word in an answer, such as "Two". */
    static Cause of(String word) {
        return valueOf(word.toUpperCase(Locale.ROOT));
    }
}
