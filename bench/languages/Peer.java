import example.yuccaeave.urlcheck.Checker;
import example.yuccaeave.urlcheck.Profile;
import example.yuccaeave.urlcheck.Refusal;
import example.yuccaeave.urlcheck.UrlCheck;
import java.net.URI;
import java.net.URISyntaxException;
import java.nio.file.Files;
import java.nio.file.Paths;
import java.util.List;
import java.util.Locale;
import java.util.function.Predicate;

/** The package and java.net.URI over the lines of a file: a row for each call. */
public final class Peer {
    private Peer() {
    }

    private static boolean isParsed(String text) {
        try {
            new URI(text);
            return true;
        } catch (URISyntaxException reason) {
            return false;
        }
    }

    private static boolean isChecked(String text) {
        try {
            UrlCheck.check(text);
            return true;
        } catch (Refusal refusal) {
            return false;
        }
    }

    private static boolean isResolved(String text) {
        try {
            UrlCheck.resolve(text);
            return true;
        } catch (Refusal refusal) {
            return false;
        }
    }

    /** The nanoseconds a text of the fastest round, and how many texts were accepted. */
    private static double[] least(int rounds, List<String> texts, Predicate<String> isAccepted) {
        double fastest = Double.POSITIVE_INFINITY;
        long accepted = 0;
        for (int round = 0; round < rounds; round++) {
            long started = System.nanoTime();
            accepted = texts.stream().filter(isAccepted).count();
            fastest = Math.min(fastest, (System.nanoTime() - started) / (double) texts.size());
        }
        return new double[] {fastest, accepted};
    }

    private static void row(String name, double[] own, double[] peer) {
        System.out.printf(Locale.ROOT, "Java %s\t%s\t%.1f\tjava.net.URI\t%.1f\t%.0f%n",
                System.getProperty("java.specification.version"), name, own[0], peer[0], own[1]);
    }

    /**
     * Writes the rows.
     *
     * @param words the file of texts, and how many rounds
     * @throws Exception if the file can't be read
     */
    public static void main(String[] words) throws Exception {
        List<String> texts = Files.readAllLines(Paths.get(words[0]));
        int rounds = Integer.parseInt(words[1]);
        double[] peer = least(rounds, texts, Peer::isParsed);
        row("isValid", least(rounds, texts, UrlCheck::isValid), peer);
        row("check", least(rounds, texts, Peer::isChecked), peer);
        row("resolve", least(rounds, texts, Peer::isResolved), peer);
        Checker checker = Checker.by(Profile.STANDARD);
        long[] accepted = new long[1];
        double[] many = least(rounds, texts.subList(0, 1), one -> {
            accepted[0] = checker.checkMany(texts).stream().filter(found -> !found.isPresent()).count();
            return true;
        });
        row("checkMany", new double[] {many[0] / texts.size(), accepted[0]}, peer);
    }
}
