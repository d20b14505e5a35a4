package example.yuccaeave.urlcheck;

import java.util.Optional;

/** A text with its parts. */
abstract class AbstractUrl {
    private final Parts parts;

    AbstractUrl(Parts parts) {
        this.parts = parts;
    }

    /**
     * The scheme, without its {@code :}.
     *
     * @return the scheme; a reference has none
     */
    public final Optional<String> scheme() {
        return parts.part(Parts.SCHEME);
    }

    /**
     * The host, after {@code //}.
     *
     * @return the host, which may be empty
     */
    public final Optional<String> host() {
        return parts.part(Parts.HOST);
    }

    /**
     * The port, without its {@code :}.
     *
     * @return the port, which may be empty
     */
    public final Optional<String> port() {
        return parts.part(Parts.PORT);
    }

    /**
     * The path, with its first {@code /}.
     *
     * @return the path, which may be empty
     */
    public final String path() {
        return parts.path();
    }

    /**
     * The query, without its {@code ?}.
     *
     * @return the query, which may be empty
     */
    public final Optional<String> query() {
        return parts.part(Parts.QUERY);
    }

    /**
     * The fragment, without its {@code #}.
     *
     * @return the fragment, which may be empty
     */
    public final Optional<String> fragment() {
        return parts.part(Parts.FRAGMENT);
    }

    @Override
    public final boolean equals(Object other) {
        return other != null && getClass() == other.getClass() && toString().equals(other.toString());
    }

    @Override
    public final int hashCode() {
        return toString().hashCode();
    }

    /**
     * The whole text.
     *
     * @return the text
     */
    @Override
    public final String toString() {
        return parts.text();
    }
}
