package example.yuccaeave.urlcheck;

/**
 * The functions of {@code urlcheck.h} that write their answer to a pointer. An array is handed over for the call, with
 * its length; one that is null is a null pointer. How C is called depends on the version of Java: see {@link Bridge},
 * of which there are two.
 */
abstract class Library {
    /** The system property that names the file of the library. */
    private static final String FILE = "urlcheck.library";
    private static volatile Library loaded;

    /** The library, which is loaded once. */
    static Library get() {
        Library library = loaded;
        return library != null ? library : load();
    }

    /** Loads the library, unless another thread has, and sees that it is one that this package is written for. */
    private static synchronized Library load() {
        if (loaded == null) {
            String file = System.getProperty(FILE);
            Library library = Bridge.load(file != null ? file : usualName());
            if (library.version() / 100 != 5) {
                throw new UnsatisfiedLinkError("liburlcheck " + library.version() + " isn't one of 500 to 599");
            }
            loaded = library;
        }
        return loaded;
    }

    /** The name by which the system finds the library. */
    private static String usualName() {
        boolean isLinux = System.getProperty("os.name").startsWith("Linux");
        return isLinux ? "liburlcheck.so.0.5" : System.mapLibraryName("urlcheck");
    }

    /** The error for a library that can't be loaded, which says how to name its file. */
    static UnsatisfiedLinkError notFound(String file, Throwable reason) {
        UnsatisfiedLinkError error = new UnsatisfiedLinkError(
                "no " + file + " is found; -D" + FILE + "=FILE says where it is: " + reason.getMessage());
        error.initCause(reason);
        return error;
    }

    // The functions of urlcheck.h, by their names without `urlcheck_`; an answer is the memory of its struct.
    abstract int version();

    abstract void prepare(long[] answer, byte[] base, int profile);

    abstract void check(long[] answer, byte[] text, int profile, long[] prepared);

    abstract boolean isValid(byte[] text, int profile, long[] prepared);

    abstract void faults(long[] answer, byte[] text, int profile, long[] prepared, long[] out, int room);

    abstract void resolve(long[] answer, byte[] text, int profile, byte[] base, byte[] out);

    abstract void mend(long[] answer, byte[] text, int profile, byte[] base, byte[] out);

    abstract void checkMany(long[] answer, byte[] texts, long[] offsets, int profile, long[] prepared, byte[] verdicts,
            byte[] rules, long[] places);

    abstract long text(int what, int number, byte[] out);

    abstract void message(long[] answer, byte[] text, int profile, int wording, int rule, long place, byte[] out);
}
