package example.yuccaeave.urlcheck;

import java.util.ArrayList;
import java.util.Collection;
import java.util.Collections;
import java.util.List;
import java.util.Optional;

/** Many texts in one call of the library, joined as it takes them: their bytes, and the offsets between them. */
final class ManyTexts {
    private final List<String> texts;
    private final byte[] bytes;
    private final long[] offsets;

    private ManyTexts(Collection<String> given) {
        texts = new ArrayList<>(given);
        List<byte[]> encoded = new ArrayList<>(texts.size());
        offsets = new long[texts.size() + 1];
        for (int row = 0; row < texts.size(); row++) {
            encoded.add(Utf8.encode(texts.get(row)));
            offsets[row + 1] = offsets[row] + encoded.get(row).length;
        }
        long length = offsets[texts.size()];
        if (length > Calls.LONGEST_ARRAY) {
            throw new IllegalArgumentException("the texts have " + length + " bytes together");
        }
        bytes = new byte[(int) length];
        for (int row = 0; row < texts.size(); row++) {
            System.arraycopy(encoded.get(row), 0, bytes, (int) offsets[row], encoded.get(row).length);
        }
    }

    /** The violation of each text, or nothing for a valid one. (A call needs arrays that have an element.) */
    static List<Optional<Violation>> check(Collection<String> given, Profile profile, long[] prepared) {
        if (given.isEmpty()) {
            return Collections.emptyList();
        }
        return new ManyTexts(given).check(profile, prepared);
    }

    private List<Optional<Violation>> check(Profile profile, long[] prepared) {
        int count = texts.size();
        byte[] verdicts = new byte[count];
        byte[] rules = new byte[count];
        long[] places = new long[count];
        Answer answer = new Answer();
        Library.get().checkMany(answer.memory(), bytes, offsets, profile.number(), prepared, verdicts, rules, places);
        Answer.require(answer.verdict() == Answer.DONE, answer.verdict());
        List<Optional<Violation>> found = new ArrayList<>(count);
        for (int row = 0; row < count; row++) {
            boolean isValid = verdicts[row] == Answer.VALID;
            Answer.require(isValid || verdicts[row] == Answer.REFUSED, verdicts[row]);
            found.add(isValid ? Optional.empty() : Optional.of(violation(row, rules[row], places[row])));
        }
        return Collections.unmodifiableList(found);
    }

    /** The violation of a row. The library gives its place in code points, from which the others are counted. */
    private Violation violation(int row, int rule, long place) {
        String text = texts.get(row);
        return new Violation(Rule.of(rule), place, Utf8.bytes(text, place), text.offsetByCodePoints(0, (int) place));
    }
}
