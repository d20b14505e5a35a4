package example.yuccaeave.urlcheck;

import java.util.ArrayList;
import java.util.Collections;
import java.util.List;
import java.util.Optional;
import java.util.concurrent.atomic.AtomicReferenceArray;

/**
 * The calls for one text, and the fixed texts. A member of an answer is read by its place in bytes in the struct of
 * {@code urlcheck.h}; after the finding, which has 24 bytes, come the members of each struct's own.
 */
final class Calls {
    /** The texts of {@code urlcheck_text}. */
    static final int RULE_SENTENCE = 1;
    static final int RULE_ADDRESS = 2;
    static final int RULE_REQUIRES = 3;
    static final int RULE_SECTION = 4;

    /** The length of the longest array that each virtual machine makes. */
    static final int LONGEST_ARRAY = Integer.MAX_VALUE - 8;

    private static final int RULES = Rule.values().length;
    /** The fixed texts that were asked for. */
    private static final AtomicReferenceArray<String> FIXED =
            new AtomicReferenceArray<>((RULE_SECTION + 1) * RULES);
    /** The wording that names neither an option nor an argument. */
    private static final int WORDING_NONE = 3;
    /** The longs of a violation, as {@code urlcheck_fault} has it. */
    private static final int FAULT = 3;

    private Calls() {
    }

    /** Checks a base once, for all texts that are checked against it. It is held as the struct of C. */
    static long[] prepare(String base, byte[] bytes, Profile profile) throws Refusal {
        Answer answer = new Answer();
        Library.get().prepare(answer.memory(), bytes, profile.number());
        answer.requireValid(base, profile);
        return answer.memory();
    }

    /** A valid text with its parts. */
    static Valid check(String text, Profile profile, long[] prepared) throws Refusal {
        byte[] bytes = Utf8.encode(text);
        Answer answer = new Answer();
        Library.get().check(answer.memory(), bytes, profile.number(), prepared);
        answer.requireValid(text, profile);
        return new Valid(Parts.of(text, bytes.length, answer, Answer.ANSWER_PARTS));
    }

    /** A call that writes a text: it is handed a buffer, and gives the length of its text. */
    interface Writing {
        long into(byte[] out);
    }

    /** The bytes that a call writes, which begin a buffer, whose room may be too small at first. */
    static byte[] written(int room, Writing call) {
        byte[] out = new byte[room];
        long length = call.into(out);
        if (length > LONGEST_ARRAY) {
            throw new OutOfMemoryError("urlcheck: the text has " + length + " bytes");
        }
        if (length <= room) {
            return out;
        }
        byte[] longer = new byte[(int) length];
        call.into(longer);
        return longer;
    }

    /** This many bytes hold the URL of nearly every text in which nothing is percent-encoded. */
    private static int usualRoom(byte[] text, byte[] base) {
        long room = (long) text.length + (base == null ? 0 : base.length) + 4;
        return (int) Math.min(room, LONGEST_ARRAY);
    }

    /** The URL of a text. In {@code urlcheck_record} the length, the parts, the host and the opaque path come last. */
    static Url resolve(String text, Profile profile, byte[] base) throws Refusal {
        byte[] bytes = Utf8.encode(text);
        Answer answer = new Answer();
        byte[] out = written(usualRoom(bytes, base), room -> {
            Library.get().resolve(answer.memory(), bytes, profile.number(), base, room);
            return answer.number(Answer.RECORD_LENGTH);
        });
        answer.requireValid(text, profile);
        int length = (int) answer.number(Answer.RECORD_LENGTH);
        Parts parts = Parts.of(Utf8.decode(out, length), length, answer, Answer.RECORD_PARTS);
        HostKind host = HostKind.of(answer.word(Answer.RECORD_HOST_KIND));
        return new Url(parts, host, answer.word(Answer.RECORD_HAS_OPAQUE_PATH) != 0);
    }

    /** The text to write in place of a refused one: in {@code urlcheck_mended} its kind, the offer and the length. */
    static Optional<Mended> mend(String text, Profile profile, byte[] base) throws Refusal {
        byte[] bytes = Utf8.encode(text);
        Answer answer = new Answer();
        byte[] out = written(usualRoom(bytes, base), room -> {
            Library.get().mend(answer.memory(), bytes, profile.number(), base, room);
            return answer.number(Answer.MENDED_LENGTH);
        });
        if (answer.verdict() == Answer.MENDED) {
            String mended = Utf8.decode(out, (int) answer.number(Answer.MENDED_LENGTH));
            MendKind kind = MendKind.of(answer.word(Answer.MENDED_KIND));
            return Optional.of(new Mended(mended, kind, answer.word(Answer.MENDED_IS_OFFERED) != 0));
        }
        answer.requireValid(text, profile);
        return Optional.empty();
    }

    /** The violations of a text. Few have more than four; for those that have, the library is called again. */
    static List<Violation> violations(String text, Profile profile, long[] prepared) {
        byte[] bytes = Utf8.encode(text);
        Answer answer = new Answer();
        long[] out = new long[4 * FAULT];
        Library.get().faults(answer.memory(), bytes, profile.number(), prepared, out, out.length / FAULT);
        int count = requireCount(answer.number(Answer.FAULT_COUNT));
        if (count > out.length / FAULT) {
            out = new long[count * FAULT];
            Library.get().faults(answer.memory(), bytes, profile.number(), prepared, out, count);
        }
        int verdict = answer.verdict();
        Answer.require(verdict == Answer.VALID || verdict == Answer.REFUSED, verdict);
        return violationsOf(text, new Answer(out), count);
    }

    /** This many violations of a text, which are in the order of their places. */
    private static List<Violation> violationsOf(String text, Answer faults, int count) {
        List<Violation> violations = new ArrayList<>(count);
        int index = 0;
        long bytePlace = 0;
        for (int row = 0; row < count; row++) {
            int at = row * FAULT * 8;
            index = Utf8.index(text, index, faults.number(at + 16) - bytePlace);
            bytePlace = faults.number(at + 16);
            violations.add(faults.violation(at, at + 8, index));
        }
        return Collections.unmodifiableList(violations);
    }

    /** A count of violations that an array holds. */
    private static int requireCount(long count) {
        if (count > LONGEST_ARRAY / (FAULT * 8)) {
            throw new OutOfMemoryError("urlcheck: the text has " + count + " violations");
        }
        return (int) count;
    }

    /** The sentence on a violation, or its rule's sentence if its place is after the end of the text. */
    static String message(String text, Profile profile, Violation violation) {
        byte[] bytes = Utf8.encode(text);
        Answer answer = new Answer();
        int rule = violation.rule().number();
        int by = profile.number();
        byte[] out = written(128, room -> {
            Library.get().message(answer.memory(), bytes, by, WORDING_NONE, rule, violation.place(), room);
            return answer.number(Answer.WRITTEN_LENGTH);
        });
        Answer.require(true, answer.verdict());
        boolean isWritten = answer.verdict() == Answer.DONE;
        return isWritten ? Utf8.decode(out, (int) answer.number(Answer.WRITTEN_LENGTH)) : violation.rule().sentence();
    }

    /** A text of a rule. Two threads may ask for one at a time, and both get the same. */
    static String fixedText(int what, Rule rule) {
        int at = what * RULES + rule.ordinal();
        String known = FIXED.get(at);
        if (known == null) {
            long[] length = new long[1];
            byte[] out = written(96, room -> length[0] = Library.get().text(what, rule.number(), room));
            known = Utf8.decode(out, (int) length[0]);
            FIXED.set(at, known);
        }
        return known;
    }
}
