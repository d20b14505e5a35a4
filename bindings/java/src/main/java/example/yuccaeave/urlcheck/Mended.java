package example.yuccaeave.urlcheck;

import java.util.Objects;

/** A valid text in place of a refused one. */
public final class Mended {
    private final String text;
    private final MendKind kind;
    private final boolean isOffered;

    Mended(String text, MendKind kind, boolean isOffered) {
        this.text = text;
        this.kind = kind;
        this.isOffered = isOffered;
    }

    /**
     * The valid text.
     *
     * @return the text
     */
    public String text() {
        return text;
    }

    /**
     * How it differs from the refused text.
     *
     * @return the kind
     */
    public MendKind kind() {
        return kind;
    }

    /**
     * Whether reports offer it as what to write. If not, its author seems to have meant another link.
     *
     * @return whether they do
     */
    public boolean isOffered() {
        return isOffered;
    }

    @Override
    public boolean equals(Object other) {
        return other instanceof Mended && text.equals(((Mended) other).text) && kind == ((Mended) other).kind
            && isOffered == ((Mended) other).isOffered;
    }

    @Override
    public int hashCode() {
        return Objects.hash(text, kind, isOffered);
    }

    @Override
    public String toString() {
        return text;
    }
}
