package example.yuccaeave.urlcheck;

import java.util.Collection;
import java.util.List;
import java.util.Objects;
import java.util.Optional;

/** Checks texts under a profile, alone or against a base. It never changes, and threads may share it. */
public final class Checker {
    private final Profile profile;
    /** The base's text, its bytes, and what the library has prepared of it; null if there is no base. */
    private final String base;
    private final byte[] baseBytes;
    private final long[] prepared;

    private Checker(Profile profile, String base, byte[] baseBytes, long[] prepared) {
        this.profile = profile;
        this.base = base;
        this.baseBytes = baseBytes;
        this.prepared = prepared;
    }

    /**
     * The checker of texts without a base.
     *
     * @param profile the profile
     * @return the checker
     */
    public static Checker by(Profile profile) {
        return new Checker(Objects.requireNonNull(profile), null, null, null);
    }

    /**
     * The checker of texts against a base, which is checked by itself, once for all texts.
     *
     * @param base the base, such as the address of a page
     * @param profile the profile, of the base and of the texts
     * @return the checker
     * @throws Refusal if the base isn't valid
     */
    public static Checker against(String base, Profile profile) throws Refusal {
        byte[] bytes = Utf8.encode(base);
        return new Checker(profile, base, bytes, Calls.prepare(base, bytes, profile));
    }

    /**
     * The profile.
     *
     * @return the profile
     */
    public Profile profile() {
        return profile;
    }

    /**
     * The base.
     *
     * @return the base, if texts are checked against one
     */
    public Optional<String> base() {
        return Optional.ofNullable(base);
    }

    /**
     * The valid text with its parts.
     *
     * @param text the text
     * @return the text with its parts, as they are written
     * @throws Refusal if the text isn't valid
     */
    public Valid check(String text) throws Refusal {
        return Calls.check(text, profile, prepared);
    }

    /**
     * Whether the text is valid: the fastest call.
     *
     * @param text the text
     * @return whether it is valid; also false if no memory is left for a domain that isn't ASCII
     */
    public boolean isValid(String text) {
        return Library.get().isValid(Utf8.encode(text), profile.number(), prepared);
    }

    /**
     * The URL that the text denotes, against the base if there is one.
     *
     * @param text the text
     * @return the URL with its parts
     * @throws Refusal if the text isn't valid
     */
    public Url resolve(String text) throws Refusal {
        return Calls.resolve(text, profile, baseBytes);
    }

    /**
     * The valid text to write in place of a refused one.
     *
     * @param text the text
     * @return the valid text; nothing if the text is valid itself
     * @throws Refusal if the edits make no valid text of it
     */
    public Optional<Mended> mend(String text) throws Refusal {
        return Calls.mend(text, profile, baseBytes);
    }

    /**
     * All that is wrong with the text.
     *
     * @param text the text
     * @return its violations, by place and at one place by rule; none if it is valid
     */
    public List<Violation> violations(String text) {
        return Calls.violations(text, profile, prepared);
    }

    /**
     * Checks many texts by one call of the library.
     *
     * @param texts the texts
     * @return of each text, in their order, the violation for which it is refused, or nothing if it is valid
     */
    public List<Optional<Violation>> checkMany(Collection<String> texts) {
        return ManyTexts.check(texts, profile, prepared);
    }
}
