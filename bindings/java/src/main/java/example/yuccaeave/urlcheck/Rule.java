package example.yuccaeave.urlcheck;

import java.util.Locale;

/** A rule that a text can violate. If several violations are at one place, the one whose rule comes first is named. */
public enum Rule {
    /** {@code no-scheme}. */
    NO_SCHEME,
    /** {@code opaque-base}. */
    OPAQUE_BASE,
    /** {@code two-slashes}. */
    TWO_SLASHES,
    /** {@code host-missing}. */
    HOST_MISSING,
    /** {@code host-domain}. */
    HOST_DOMAIN,
    /** {@code host-number}. */
    HOST_NUMBER,
    /** {@code host-ipv6}. */
    HOST_IPV6,
    /** {@code host-code-point}. */
    HOST_CODE_POINT,
    /** {@code port-digit}. */
    PORT_DIGIT,
    /** {@code port-range}. */
    PORT_RANGE,
    /** {@code first-segment-empty}. */
    FIRST_SEGMENT_EMPTY,
    /** {@code drive-after-host}. */
    DRIVE_AFTER_HOST,
    /** {@code code-point}. */
    CODE_POINT,
    /** {@code percent}. */
    PERCENT;

    private static final Rule[] ALL = values();

    /**
     * The rule's name.
     *
     * @return the name, such as {@code host-domain}
     */
    @Override
    public String toString() {
        return name().toLowerCase(Locale.ROOT).replace('_', '-');
    }

    /**
     * What is wrong at the place of a violation. {@link Violation#message} also names the code point that is there.
     *
     * @return the sentence, without its end
     */
    public String sentence() {
        return Calls.fixedText(Calls.RULE_SENTENCE, this);
    }

    /**
     * Where the section of the URL Standard is that has the rule.
     *
     * @return the section's address
     */
    public String address() {
        return Calls.fixedText(Calls.RULE_ADDRESS, this);
    }

    /**
     * What the rule requires of a text.
     *
     * @return the sentence, without its end
     */
    public String requires() {
        return Calls.fixedText(Calls.RULE_REQUIRES, this);
    }

    /**
     * The section of the URL Standard that has the rule.
     *
     * @return the section's number, and what it calls what the rule is about
     */
    public String section() {
        return Calls.fixedText(Calls.RULE_SECTION, this);
    }

    /**
     * The rule that has the name.
     *
     * @param name the name, such as {@code host-domain}
     * @return the rule
     * @throws IllegalArgumentException if no rule has the name
     */
    public static Rule of(String name) {
        for (Rule rule : ALL) {
            if (rule.toString().equals(name)) {
                return rule;
            }
        }
        throw new IllegalArgumentException("no rule has the name " + name);
    }

    int number() {
        return ordinal() + 1;
    }

    static Rule of(int number) {
        return ALL[number - 1];
    }
}
