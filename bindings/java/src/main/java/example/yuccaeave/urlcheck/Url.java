package example.yuccaeave.urlcheck;

/**
 * The URL that a valid text denotes, serialized (URL Standard, section 4.5), with its parts. A domain is in ASCII, and
 * a default port isn't there.
 */
public final class Url extends AbstractUrl {
    private final HostKind hostKind;
    private final boolean hasOpaquePath;

    Url(Parts parts, HostKind hostKind, boolean hasOpaquePath) {
        super(parts);
        this.hostKind = hostKind;
        this.hasOpaquePath = hasOpaquePath;
    }

    /**
     * Of which kind the host is.
     *
     * @return the kind
     */
    public HostKind hostKind() {
        return hostKind;
    }

    /**
     * Whether the path is opaque, as in {@code urn:isbn:1}: it has no segments.
     *
     * @return whether it is
     */
    public boolean hasOpaquePath() {
        return hasOpaquePath;
    }
}
