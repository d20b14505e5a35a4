package example.yuccaeave.urlcheck;

/**
 * A valid URL string with its parts as they are written: capitals, escapes, dot segments and a default port stay. A
 * reference has nothing of its base.
 */
public final class Valid extends AbstractUrl {
    Valid(Parts parts) {
        super(parts);
    }
}
