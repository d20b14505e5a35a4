import example.yuccaeave.urlcheck.Checker;
import example.yuccaeave.urlcheck.Profile;
import example.yuccaeave.urlcheck.Refusal;
import example.yuccaeave.urlcheck.UrlCheck;
import java.util.Collections;

/**
 * What the package says of a file that isn't its library, and of answers that no call of liburlcheck gives. Its words: no
 * file, a library of something else, told.c as a library of version 399, told.c, and why something else isn't the library,
 * unless JNA says that.
 */
public final class Told {
    private static final Checker ALONE = Checker.by(Profile.STANDARD);

    private Told() {
    }

    private interface Call {
        void run() throws Refusal;
    }

    /** Sees how a call ends. After a colon at the end of what is wanted come words of Java's own, or of JNA's. */
    private static void ends(Class<? extends Throwable> wanted, String words, Call call) throws Refusal {
        try {
            call.run();
        } catch (RuntimeException | Error thrown) {
            String said = String.valueOf(thrown.getMessage());
            if (thrown.getClass() == wanted && (words.endsWith(": ") ? said.startsWith(words) : said.equals(words))) {
                return;
            }
            throw new AssertionError("not " + wanted + ": " + words, thrown);
        }
        throw new AssertionError("nothing was thrown, and not " + wanted + ": " + words);
    }

    /** Sees what is said of a library that isn't the package's. */
    private static void isRefused(String file, String words) throws Refusal {
        System.setProperty("urlcheck.library", file);
        ends(UnsatisfiedLinkError.class, words, UrlCheck::version);
    }

    public static void main(String[] words) throws Refusal {
        String says = " is found; -Durlcheck.library=FILE says where it is: ";
        isRefused(words[0], "no " + words[0] + says);
        isRefused(words[1], "no " + words[1] + says + words[4]);
        isRefused(words[2], "liburlcheck 399 isn't one of 500 to 599");
        System.setProperty("urlcheck.library", words[3]);
        String unknown = "liburlcheck 532 ends with 77";
        Class<OutOfMemoryError> memory = OutOfMemoryError.class;
        ends(memory, "urlcheck: no memory is left", () -> ALONE.check("5"));
        ends(memory, "urlcheck: no memory is left", () -> ALONE.checkMany(Collections.singletonList("5")));
        ends(IllegalStateException.class, unknown, () -> ALONE.resolve("77"));
        ends(IllegalStateException.class, unknown, () -> ALONE.violations("77"));
        ends(IllegalStateException.class, unknown, () -> Checker.against("77", Profile.STANDARD));
    }
}
