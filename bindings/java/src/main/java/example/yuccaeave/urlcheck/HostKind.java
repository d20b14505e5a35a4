package example.yuccaeave.urlcheck;

/** The kinds of hosts (URL Standard, section 3.1). */
public enum HostKind {
    /** There is no host. */
    NONE,
    /** A domain, of a special URL. */
    DOMAIN,
    /** An IPv4 address. */
    IPV4,
    /** An IPv6 address, written in brackets. */
    IPV6,
    /** An opaque host, of a URL that isn't special. */
    OPAQUE,
    /** The empty host. */
    EMPTY;

    static HostKind of(int number) {
        return values()[number];
    }
}
