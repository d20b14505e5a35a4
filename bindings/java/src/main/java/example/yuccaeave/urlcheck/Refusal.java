package example.yuccaeave.urlcheck;

/**
 * Why a text, or a base, isn't valid: its first violation, and if several are at that place, the one whose rule comes first. It is
 * a common answer and no fault of the program, so it has no stack trace, which would take longer than the check.
 */
public final class Refusal extends Exception {
    private static final long serialVersionUID = 1L;

    /** The violation. */
    private final Violation violation;
    /** The profile by which the text was checked. */
    private final Profile profile;

    Refusal(Violation violation, Profile profile) {
        super(violation.toString(), null, false, false);
        this.violation = violation;
        this.profile = profile;
    }

    /**
     * The violation.
     *
     * @return the violation
     */
    public Violation violation() {
        return violation;
    }

    /**
     * The rule that is violated.
     *
     * @return the rule
     */
    public Rule rule() {
        return violation.rule();
    }

    /**
     * The wrong place in the text, in code points.
     *
     * @return the place, from 0
     */
    public long place() {
        return violation.place();
    }

    /**
     * The wrong place in the text, in UTF-16 units, as {@link String#substring(int)} takes it.
     *
     * @return the index, from 0
     */
    public int index() {
        return violation.index();
    }

    /**
     * The profile by which the text was checked.
     *
     * @return the profile
     */
    public Profile profile() {
        return profile;
    }

    /**
     * The sentence on this refusal of a text, which names the code point at the place.
     *
     * @param text the text
     * @return the sentence, without its end
     */
    public String message(String text) {
        return violation.message(text, profile);
    }
}
