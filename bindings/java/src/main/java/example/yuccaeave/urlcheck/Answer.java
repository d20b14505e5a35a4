package example.yuccaeave.urlcheck;

import java.nio.ByteOrder;

/**
 * The memory of a struct that the library writes, in longs, since its members are aligned as these. Each struct begins
 * with a finding. The places of members, in bytes, are those that {@code urlcheck.h} asserts.
 */
final class Answer {
    /** The outcomes of {@code urlcheck_outcome} that a call of this package can end with. */
    static final int VALID = 0;
    static final int REFUSED = 1;
    static final int BASE_REFUSED = 3;
    static final int MEMORY = 5;
    static final int MENDED = 8;
    static final int DONE = 9;

    /** The offsets of the rule and of the place in bytes in a finding, with which each struct begins. */
    private static final int RULE = 4;
    private static final int PLACE = 8;
    private static final int BYTE_PLACE = 16;
    /** Where the other members of each struct are. */
    static final int ANSWER_PARTS = 24;
    static final int RECORD_LENGTH = 24;
    static final int RECORD_PARTS = 32;
    static final int RECORD_HOST_KIND = 176;
    static final int RECORD_HAS_OPAQUE_PATH = 180;
    static final int MENDED_KIND = 24;
    static final int MENDED_IS_OFFERED = 28;
    static final int MENDED_LENGTH = 32;
    static final int FAULT_COUNT = 24;
    static final int WRITTEN_LENGTH = 24;

    /** The length of a span. */
    static final int SPAN = 24;
    /** The length of the longest struct, a record. */
    private static final int LONGEST = 184;
    private static final boolean IS_LITTLE = ByteOrder.nativeOrder() == ByteOrder.LITTLE_ENDIAN;

    private final long[] memory;

    /** Memory for any of the structs. */
    Answer() {
        this(new long[LONGEST / 8]);
    }

    /** A struct, or an array of structs, that the library has written before. */
    Answer(long[] memory) {
        this.memory = memory;
    }

    long[] memory() {
        return memory;
    }

    /** How the call ended, which each struct begins with. */
    int verdict() {
        return word(0);
    }

    /** A member of 32 bits. */
    int word(int at) {
        long both = memory[at / 8];
        boolean isHigh = (at % 8 != 0) == IS_LITTLE;
        return (int) (isHigh ? both >>> 32 : both);
    }

    /** A member of 64 bits. */
    long number(int at) {
        return memory[at / 8];
    }

    /** A member of one byte, which begins one of 64 bits. */
    boolean isTrue(int at) {
        long whole = memory[at / 8];
        return (IS_LITTLE ? whole & 0xff : whole >>> 56) != 0;
    }

    /** The violation whose rule and places are at these places, and whose index is this one. */
    Violation violation(int rule, int places, int index) {
        return new Violation(Rule.of(word(rule)), number(places), number(places + 8), index);
    }

    /** Ends the call, but for a valid text: with the refusal of the text, or for want of memory. */
    void requireValid(String text, Profile profile) throws Refusal {
        int verdict = verdict();
        if (verdict == REFUSED || verdict == BASE_REFUSED) {
            throw new Refusal(violation(RULE, PLACE, Utf8.index(text, 0, number(BYTE_PLACE))), profile);
        }
        require(verdict == VALID, verdict);
    }

    /** Ends the call if the verdict isn't a wanted one. */
    static void require(boolean isWanted, int verdict) {
        if (verdict == MEMORY) {
            throw new OutOfMemoryError("urlcheck: no memory is left");
        }
        if (!isWanted) {
            throw new IllegalStateException("liburlcheck " + Library.get().version() + " ends with " + verdict);
        }
    }
}
