import example.yuccaeave.urlcheck.Checker;
import example.yuccaeave.urlcheck.Profile;
import example.yuccaeave.urlcheck.Refusal;
import example.yuccaeave.urlcheck.UrlCheck;
import java.util.Collections;

/** What becomes of texts whose bytes, URL or violations no array of Java holds: exceptions and errors of Java's own. */
public final class LongTexts {
    /** A call that ends by an exception or an error. */
    private interface Call {
        void run() throws Refusal;
    }

    private static final Checker ALONE = Checker.by(Profile.STANDARD);

    private LongTexts() {
    }

    private static void ends(Class<? extends Throwable> wanted, String words, Call call) {
        try {
            call.run();
        } catch (Refusal | RuntimeException | OutOfMemoryError thrown) {
            if (thrown.getClass() == wanted && words.equals(thrown.getMessage())) {
                return;
            }
            throw new AssertionError("not " + wanted + ": " + words, thrown);
        }
        throw new AssertionError("nothing was thrown, and not " + wanted + ": " + words);
    }

    private static void isTrue(boolean fact, String what) {
        if (!fact) {
            throw new AssertionError(what);
        }
    }

    /** More units than each of whose three bytes an array holds. */
    private static void tooLongToEncode() {
        String text = "http://h/" + "a".repeat(Integer.MAX_VALUE / 3 - 8);
        String words = "the text has more than 715827882 UTF-16 units";
        Class<IllegalArgumentException> wanted = IllegalArgumentException.class;
        ends(wanted, words, () -> ALONE.check(text));
        ends(wanted, words, () -> ALONE.isValid(text));
        ends(wanted, words, () -> ALONE.resolve(text));
        ends(wanted, words, () -> ALONE.mend(text));
        ends(wanted, words, () -> ALONE.violations(text));
        ends(wanted, words, () -> ALONE.checkMany(Collections.singletonList(text)));
        ends(wanted, words, () -> Checker.against(text, Profile.STANDARD));
    }

    /** A URL of more than 2 GiB, of a text of 800 MB: each of its code points has six bytes there. */
    private static void tooLongToResolve() {
        String text = "http://h/" + "\u00e9".repeat(400_000_000);
        isTrue(UrlCheck.isValid(text), "a text of 800 MB is valid");
        ends(OutOfMemoryError.class, "urlcheck: the text has 2400000009 bytes", () -> UrlCheck.resolve(text));
    }

    /** More violations than an array of their numbers holds. */
    private static void tooManyViolations() throws Refusal {
        String text = "http://h/" + "^".repeat(90_000_000);
        ends(OutOfMemoryError.class, "urlcheck: the text has 90000000 violations", () -> UrlCheck.violations(text));
        try {
            UrlCheck.check(text);
            throw new AssertionError("it is valid");
        } catch (Refusal refusal) {
            isTrue(refusal.place() == 9, "the first of them is named");
        }
    }

    /** Texts that fit one by one, and not together. */
    private static void tooLongTogether() {
        String text = "http://h/" + "a".repeat(499_999_991);
        ends(IllegalArgumentException.class, "the texts have 2500000000 bytes together",
                () -> ALONE.checkMany(Collections.nCopies(5, text)));
    }

    public static void main(String[] words) throws Refusal {
        tooManyViolations();
        tooLongToEncode();
        tooLongToResolve();
        tooLongTogether();
    }
}
