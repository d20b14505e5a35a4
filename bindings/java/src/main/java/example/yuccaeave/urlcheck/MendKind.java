package example.yuccaeave.urlcheck;

import java.util.Locale;

/** How a mended text differs from the refused one. */
public enum MendKind {
    /** A second parser reads both as the same URL. */
    SAME,
    /** It doesn't; some code points of the refused text are percent-encoded, and nothing else is changed. */
    ESCAPED,
    /** Neither: the author has to look. */
    CHANGED;

    /**
     * The word by which the command {@code urlcheck mend} writes the kind.
     *
     * @return the word, such as {@code same}
     */
    @Override
    public String toString() {
        return name().toLowerCase(Locale.ROOT);
    }

    static MendKind of(int number) {
        return values()[number - 1];
    }
}
