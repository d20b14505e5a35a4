package example.yuccaeave.urlcheck;

import java.io.Serializable;

/** A rule that a text violates at a place. */
public final class Violation implements Serializable {
    private static final long serialVersionUID = 1L;

    /** The rule. */
    private final Rule rule;
    /** The wrong place in the text, in code points. */
    private final long place;
    /** The wrong place in the text, in bytes. */
    private final long bytePlace;
    /** The wrong place in the text, in UTF-16 units. */
    private final int index;

    Violation(Rule rule, long place, long bytePlace, int index) {
        this.rule = rule;
        this.place = place;
        this.bytePlace = bytePlace;
        this.index = index;
    }

    /**
     * The rule.
     *
     * @return the rule
     */
    public Rule rule() {
        return rule;
    }

    /**
     * The wrong place in the text, in code points.
     *
     * @return the place, from 0
     */
    public long place() {
        return place;
    }

    /**
     * The wrong place in the text, in bytes of UTF-8.
     *
     * @return the place, from 0
     */
    public long bytePlace() {
        return bytePlace;
    }

    /**
     * The wrong place in the text, in UTF-16 units, as {@link String#substring(int)} takes it.
     *
     * @return the index, from 0
     */
    public int index() {
        return index;
    }

    /**
     * The sentence on this violation of a text, which names the code point at the place.
     *
     * @param text the text
     * @param profile the profile by which it was checked
     * @return the sentence, without its end; the rule's sentence if the place is after the end of the text
     */
    public String message(String text, Profile profile) {
        return Calls.message(text, profile, this);
    }

    @Override
    public boolean equals(Object other) {
        if (!(other instanceof Violation)) {
            return false;
        }
        Violation that = (Violation) other;
        return rule == that.rule && place == that.place && bytePlace == that.bytePlace && index == that.index;
    }

    @Override
    public int hashCode() {
        return 31 * rule.hashCode() + Long.hashCode(bytePlace);
    }

    /**
     * The violation in words.
     *
     * @return such as {@code at place 21: this code point is not allowed in a URL [code-point]}
     */
    @Override
    public String toString() {
        return "at place " + place + ": " + rule.sentence() + " [" + rule + "]";
    }
}
