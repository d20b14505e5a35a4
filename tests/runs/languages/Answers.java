import example.yuccaeave.urlcheck.Checker;
import example.yuccaeave.urlcheck.Mended;
import example.yuccaeave.urlcheck.Profile;
import example.yuccaeave.urlcheck.Refusal;
import example.yuccaeave.urlcheck.Url;
import example.yuccaeave.urlcheck.Valid;
import example.yuccaeave.urlcheck.Violation;
import java.io.PrintStream;
import java.nio.ByteBuffer;
import java.nio.ByteOrder;
import java.nio.charset.StandardCharsets;
import java.nio.file.Files;
import java.nio.file.Paths;
import java.util.ArrayList;
import java.util.Collections;
import java.util.List;
import java.util.Optional;

/**
 * Answers each case of a file of cases (see tests/runs/library/cases.py) by the package, in each profile, a line each.
 * With the word {@code mended} after the file a line has what is mended.
 */
public final class Answers {
    private static final int ABSENT = -1;

    private Answers() {
    }

    /** The next text, after its length in four bytes, or null where it is absent. */
    private static String next(ByteBuffer data) {
        int length = data.getInt();
        if (length == ABSENT) {
            return null;
        }
        byte[] text = new byte[length];
        data.get(text);
        return new String(text, StandardCharsets.UTF_8);
    }

    private static void require(boolean holds, String what) {
        if (!holds) {
            throw new AssertionError(what);
        }
    }

    private static String at(String text, Violation wrong) {
        require(text.codePointCount(0, wrong.index()) == wrong.place(), "an index that isn't that of the place");
        return wrong.place() + " " + wrong.bytePlace() + " " + wrong.rule();
    }

    private static String shown(Optional<String> part) {
        return part.map(it -> "+" + it).orElse("-");
    }

    private static String with(String mark, Optional<String> part) {
        return part.map(it -> mark + it).orElse("");
    }

    /** The URL with its parts joined again, which has to be its text. */
    private static String joined(Url url) {
        boolean isDotted = !url.host().isPresent() && url.path().startsWith("//");
        return with("", url.scheme()) + ":" + with("//", url.host()) + with(":", url.port()) + (isDotted ? "/." : "")
                + url.path() + with("?", url.query()) + with("#", url.fragment());
    }

    /** The answer of each call for one text, which have to agree. */
    private static String line(Checker checker, String text) {
        List<String> fields = new ArrayList<>();
        Optional<Violation> many = checker.checkMany(Collections.singleton(text)).get(0);
        require(checker.isValid(text) != many.isPresent(), "isValid");
        try {
            Valid url = checker.check(text);
            Url resolved = checker.resolve(text);
            require(!many.isPresent(), "another verdict");
            require(joined(resolved).equals(resolved.toString()), "the parts of the URL aren't it");
            Collections.addAll(fields, "0", shown(url.scheme()), shown(url.host()), shown(url.port()), "+" + url.path(),
                    shown(url.query()), shown(url.fragment()), resolved.toString());
        } catch (Refusal refusal) {
            require(refusal.violation().equals(many.get()), "another refusal");
            require(!refusal.message(text).isEmpty(), "no message");
            fields.add("1 " + at(text, refusal.violation()));
        }
        for (Violation wrong : checker.violations(text)) {
            fields.add(at(text, wrong));
        }
        return String.join("\t", fields);
    }

    private static String mended(Checker checker, String text) {
        try {
            Optional<Mended> mended = checker.mend(text);
            return mended.map(it -> "mended " + it.kind() + "\t" + it.text()).orElse("valid");
        } catch (Refusal refusal) {
            return "none\trefused " + refusal.place() + " " + refusal.rule();
        }
    }

    private static String answer(String text, String base, Profile profile, boolean isMended) {
        Checker checker;
        try {
            checker = base == null ? Checker.by(profile) : Checker.against(base, profile);
        } catch (Refusal refusal) {
            return isMended ? "base refused " + refusal.place() + " " + refusal.rule()
                    : "3 " + at(base, refusal.violation());
        }
        return isMended ? mended(checker, text) : line(checker, text);
    }

    /**
     * Writes the answers.
     *
     * @param words the file of cases, and {@code mended} or nothing
     * @throws Exception if the file can't be read
     */
    public static void main(String[] words) throws Exception {
        ByteBuffer data = ByteBuffer.wrap(Files.readAllBytes(Paths.get(words[0]))).order(ByteOrder.LITTLE_ENDIAN);
        StringBuilder all = new StringBuilder();
        while (data.hasRemaining()) {
            String text = next(data);
            String base = next(data);
            for (Profile profile : Profile.values()) {
                all.append(answer(text, base, profile, words.length > 1)).append('\n');
            }
        }
        try (PrintStream out = new PrintStream(System.out, false, "UTF-8")) {
            out.print(all);
        }
    }
}
