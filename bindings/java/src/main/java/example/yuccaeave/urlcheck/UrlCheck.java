package example.yuccaeave.urlcheck;

import java.util.List;
import java.util.Optional;

/** Checks a text without a base, under the standard profile. A {@link Checker} has another profile, or a base. */
public final class UrlCheck {
    private static final Checker STANDARD = Checker.by(Profile.STANDARD);

    private UrlCheck() {
    }

    /**
     * The valid text with its parts.
     *
     * @param text the text
     * @return the text with its parts, as they are written
     * @throws Refusal if the text isn't valid
     */
    public static Valid check(String text) throws Refusal {
        return STANDARD.check(text);
    }

    /**
     * Whether the text is valid: the fastest call.
     *
     * @param text the text
     * @return whether it is valid; also false if no memory is left for a domain that isn't ASCII
     */
    public static boolean isValid(String text) {
        return STANDARD.isValid(text);
    }

    /**
     * The URL that the text denotes.
     *
     * @param text the text
     * @return the URL with its parts
     * @throws Refusal if the text isn't valid
     */
    public static Url resolve(String text) throws Refusal {
        return STANDARD.resolve(text);
    }

    /**
     * The valid text to write in place of a refused one.
     *
     * @param text the text
     * @return the valid text; nothing if the text is valid itself
     * @throws Refusal if the edits make no valid text of it
     */
    public static Optional<Mended> mend(String text) throws Refusal {
        return STANDARD.mend(text);
    }

    /**
     * All that is wrong with the text.
     *
     * @param text the text
     * @return its violations, by place and at one place by rule; none if it is valid
     */
    public static List<Violation> violations(String text) {
        return STANDARD.violations(text);
    }

    /**
     * The version of the library that answers.
     *
     * @return the version, such as {@code 0.5.0}
     */
    public static String version() {
        int version = Library.get().version();
        return version / 10_000 + "." + version / 100 % 100 + "." + version % 100;
    }
}
