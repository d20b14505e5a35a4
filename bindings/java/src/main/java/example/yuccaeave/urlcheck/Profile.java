package example.yuccaeave.urlcheck;

import java.util.Locale;

/** Which texts are valid. Each profile accepts what the one before it accepts. */
public enum Profile {
    /** The URL Standard's valid URL strings. */
    STANDARD,
    /** Also {@code _} and hyphens anywhere in domains, and any segments after an authority. */
    WIDE,
    /** Each text that the Standard's parser accepts without a validation error, and no other. */
    PARSER;

    /**
     * The name by which the command {@code urlcheck} knows the profile.
     *
     * @return the name, such as {@code wide}
     */
    @Override
    public String toString() {
        return name().toLowerCase(Locale.ROOT);
    }

    /**
     * The profile that has the name.
     *
     * @param name the name, such as {@code wide}
     * @return the profile
     * @throws IllegalArgumentException if no profile has the name
     */
    public static Profile of(String name) {
        for (Profile profile : values()) {
            if (profile.toString().equals(name)) {
                return profile;
            }
        }
        throw new IllegalArgumentException("no profile has the name " + name + ": there are standard, wide and parser");
    }

    int number() {
        return ordinal();
    }
}
