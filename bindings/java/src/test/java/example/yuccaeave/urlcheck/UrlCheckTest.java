package example.yuccaeave.urlcheck;

import static org.junit.Assert.assertEquals;
import static org.junit.Assert.assertFalse;
import static org.junit.Assert.assertThrows;
import static org.junit.Assert.assertTrue;

import java.io.ByteArrayInputStream;
import java.io.ByteArrayOutputStream;
import java.io.ObjectInputStream;
import java.io.ObjectOutputStream;
import java.util.ArrayList;
import java.util.Arrays;
import java.util.Collections;
import java.util.List;
import java.util.Optional;
import java.util.concurrent.ExecutorService;
import java.util.concurrent.Executors;
import java.util.concurrent.Future;
import org.junit.Test;

/** Each call, on what it is for and on what a caller may hand in by mistake. */
public final class UrlCheckTest {
    /** é, 😀: two and four bytes, one and two UTF-16 units. */
    private static final String WIDE = "\u00e9\ud83d\ude00";

    private static Refusal refusal(String text) {
        return assertThrows(Refusal.class, () -> UrlCheck.check(text));
    }

    private static String repeated(String text, int count) {
        return String.join("", Collections.nCopies(count, text));
    }

    @Test
    public void aValidTextHasItsParts() throws Refusal {
        Valid url = UrlCheck.check("HTTPS://Example.com:443/a/../b?x#y");
        assertEquals(Optional.of("HTTPS"), url.scheme());
        assertEquals(Optional.of("Example.com"), url.host());
        assertEquals(Optional.of("443"), url.port());
        assertEquals("/a/../b", url.path());
        assertEquals(Optional.of("x"), url.query());
        assertEquals(Optional.of("y"), url.fragment());
        Valid urn = UrlCheck.check("urn:isbn:0451450523");
        assertEquals(Optional.empty(), urn.host());
        assertEquals("isbn:0451450523", urn.path());
        assertEquals(urn, UrlCheck.check("urn:isbn:0451450523"));
    }

    @Test
    public void partsAfterWideCodePointsAreWhereTheyAre() throws Refusal {
        Valid url = UrlCheck.check("http://h/" + WIDE + "/b?" + WIDE + "#" + WIDE);
        assertEquals("/" + WIDE + "/b", url.path());
        assertEquals(Optional.of(WIDE), url.query());
        assertEquals(Optional.of(WIDE), url.fragment());
    }

    @Test
    public void theVersionIsAText() {
        assertTrue(UrlCheck.version(), UrlCheck.version().startsWith("0.5."));
    }

    @Test
    public void aRefusalHasNoStackTrace() {
        assertEquals(0, refusal("x").getStackTrace().length);
    }

    @Test
    public void profilesAndRulesHaveNames() {
        for (Profile profile : Profile.values()) {
            assertEquals(profile, Profile.of(profile.toString()));
        }
        for (Rule rule : Rule.values()) {
            assertEquals(rule, Rule.of(rule.toString()));
        }
        assertEquals("host-ipv6", Rule.HOST_IPV6.toString());
        Exception profile = assertThrows(IllegalArgumentException.class, () -> Profile.of("Wide"));
        assertEquals("no profile has the name Wide: there are standard, wide and parser", profile.getMessage());
        Exception rule = assertThrows(IllegalArgumentException.class, () -> Rule.of("HOST_IPV6"));
        assertEquals("no rule has the name HOST_IPV6", rule.getMessage());
    }

    @Test
    public void mendedTextsAreCompared() throws Refusal {
        Mended mended = UrlCheck.mend("http://h/a b").get();
        assertEquals(mended, UrlCheck.mend("http://h/a b").get());
        assertEquals(mended.hashCode(), UrlCheck.mend("http://h/a b").get().hashCode());
        assertFalse(mended.equals(UrlCheck.mend("http://h/a  b").get()));
    }

    @Test
    public void aRefusalHasItsPlaceInEachUnit() {
        String text = "http://h/" + WIDE + " b";
        Refusal refusal = refusal(text);
        assertEquals(Rule.CODE_POINT, refusal.rule());
        assertEquals(11, refusal.place());
        assertEquals(15, refusal.violation().bytePlace());
        assertEquals(" b", text.substring(refusal.index()));
        assertEquals("U+0020 SPACE is not allowed in a URL", refusal.message(text));
        assertEquals(Rule.CODE_POINT.sentence(), refusal.message(""));
        assertEquals("at place 11: this code point is not allowed in a URL [code-point]", refusal.getMessage());
    }

    @Test
    public void aMessageNamesNoOption() {
        assertFalse(refusal("http://a_b/").message("http://a_b/").contains("profile"));
        assertTrue(Checker.by(Profile.WIDE).isValid("http://a_b/"));
    }

    @Test
    public void aRefusalCanBeWrittenAndRead() throws Exception {
        Refusal refusal = refusal("x");
        ByteArrayOutputStream bytes = new ByteArrayOutputStream();
        try (ObjectOutputStream out = new ObjectOutputStream(bytes)) {
            out.writeObject(refusal);
        }
        try (ObjectInputStream in = new ObjectInputStream(new ByteArrayInputStream(bytes.toByteArray()))) {
            assertEquals(refusal.violation(), ((Refusal) in.readObject()).violation());
        }
    }

    @Test
    public void emptyTextsAndNulAreTexts() throws Refusal {
        assertEquals(Rule.NO_SCHEME, refusal("").rule());
        assertEquals(9, refusal("http://h/\0a").place());
        assertThrows(Refusal.class, () -> Checker.against("", Profile.STANDARD));
        Checker checker = Checker.against("http://h/a?q", Profile.STANDARD);
        assertEquals("http://h/a?q", checker.resolve("").toString());
        assertEquals(Optional.of("http://h/a?q"), checker.base());
    }

    @Test
    public void loneSurrogatesAndNullAreMistakes() {
        List<String> lone = Arrays.asList("http://h/\ud83d", "http://h/\ude00", "http://h/\ude00\ud83d", "\ud83dx");
        for (String text : lone) {
            for (Checker checker : Arrays.asList(Checker.by(Profile.STANDARD), Checker.by(Profile.PARSER))) {
                assertThrows(IllegalArgumentException.class, () -> checker.check(text));
                assertThrows(IllegalArgumentException.class, () -> checker.isValid(text));
                assertThrows(IllegalArgumentException.class, () -> checker.resolve(text));
                assertThrows(IllegalArgumentException.class, () -> checker.mend(text));
                assertThrows(IllegalArgumentException.class, () -> checker.violations(text));
                assertThrows(IllegalArgumentException.class, () -> checker.checkMany(Arrays.asList("x", text)));
            }
            assertThrows(IllegalArgumentException.class, () -> Checker.against(text, Profile.STANDARD));
        }
        String late = "http://h/" + WIDE + "\ud83d";
        Exception said = assertThrows(IllegalArgumentException.class, () -> UrlCheck.check(late));
        assertEquals("the text has a lone surrogate at index 12", said.getMessage());
        assertThrows(NullPointerException.class, () -> UrlCheck.check(null));
        assertThrows(NullPointerException.class, () -> UrlCheck.isValid(null));
        assertThrows(NullPointerException.class, () -> Checker.by(null));
        assertThrows(NullPointerException.class, () -> Checker.against(null, Profile.STANDARD));
        assertThrows(NullPointerException.class, () -> Checker.against("http://h/", null));
    }

    @Test
    public void textsThatNoArrayHoldsAreMistakes() {
        Utf8.requireLength(Utf8.MOST_UNITS);
        Exception said = assertThrows(IllegalArgumentException.class, () -> Utf8.requireLength(Utf8.MOST_UNITS + 1));
        assertEquals("the text has more than 715827882 UTF-16 units", said.getMessage());
        assertEquals(Integer.MAX_VALUE, 3L * Utf8.MOST_UNITS + Integer.MAX_VALUE % 3);
    }

    @Test
    public void aUrlHasItsParts() throws Refusal {
        Url url = Checker.against("https://example.com:8080/a/b", Profile.STANDARD).resolve("../\u00e9?q#f");
        assertEquals("https://example.com:8080/%C3%A9?q#f", url.toString());
        assertEquals(Optional.of("8080"), url.port());
        assertEquals("/%C3%A9", url.path());
        assertEquals(HostKind.DOMAIN, url.hostKind());
        assertFalse(url.hasOpaquePath());
        assertTrue(UrlCheck.resolve("urn:isbn:1").hasOpaquePath());
        assertEquals(HostKind.NONE, UrlCheck.resolve("urn:isbn:1").hostKind());
        String longer = UrlCheck.resolve("http://h/" + repeated(WIDE, 10_000)).toString();
        assertEquals("http://h/" + repeated("%C3%A9%F0%9F%98%80", 10_000), longer);
    }

    @Test
    public void aRefusedTextIsMended() throws Refusal {
        Mended mended = UrlCheck.mend("http://h/a b").get();
        assertEquals("http://h/a%20b", mended.text());
        assertEquals(MendKind.SAME, mended.kind());
        assertTrue(mended.isOffered());
        assertEquals(Optional.empty(), UrlCheck.mend("http://h/"));
        assertEquals(Rule.HOST_IPV6, assertThrows(Refusal.class, () -> UrlCheck.mend("http://[::1")).rule());
    }

    @Test
    public void allViolationsAreFoundHoweverManyTheyAre() {
        List<Violation> violations = UrlCheck.violations("http://h/" + repeated("\u00e9^", 1000));
        assertEquals(1000, violations.size());
        for (int at = 0; at < 1000; at++) {
            Violation wanted = new Violation(Rule.CODE_POINT, 10 + 2 * at, 11 + 3 * at, 10 + 2 * at);
            assertEquals(wanted, violations.get(at));
        }
        assertEquals(Collections.emptyList(), UrlCheck.violations("http://h/"));
    }

    @Test
    public void manyTextsAreCheckedAsEachIs() throws Refusal {
        List<String> texts = Arrays.asList("http://h/", "", "x y", "http://h/" + WIDE + "^", "//g/a");
        Checker wide = Checker.against("http://h/a", Profile.WIDE);
        for (Checker checker : Arrays.asList(Checker.by(Profile.STANDARD), wide)) {
            List<Optional<Violation>> found = checker.checkMany(texts);
            for (int row = 0; row < texts.size(); row++) {
                assertEquals(checker.violations(texts.get(row)).stream().findFirst(), found.get(row));
            }
        }
        assertTrue(Checker.by(Profile.STANDARD).checkMany(Collections.emptyList()).isEmpty());
        assertEquals(1, Checker.by(Profile.STANDARD).checkMany(Collections.singletonList("")).size());
    }

    @Test
    public void eachRuleHasItsTexts() {
        for (Rule rule : Rule.values()) {
            assertEquals(rule.name().toLowerCase().replace('_', '-'), rule.toString());
            assertFalse(rule.sentence().isEmpty() || rule.requires().isEmpty() || rule.section().isEmpty());
            assertTrue(UrlCheck.isValid(rule.address()));
        }
        assertEquals("wide", Profile.WIDE.toString());
    }

    @Test
    public void threadsShareABase() throws Exception {
        Checker checker = Checker.against("http://h/a/b", Profile.PARSER);
        ExecutorService threads = Executors.newFixedThreadPool(4);
        List<Future<Boolean>> all = new ArrayList<>();
        for (int number = 0; number < 4; number++) {
            all.add(threads.submit(() -> {
                for (int round = 0; round < 1000; round++) {
                    assertEquals("http://h/c", checker.resolve("../c").toString());
                    assertFalse(checker.isValid("^"));
                }
                return true;
            }));
        }
        for (Future<Boolean> one : all) {
            assertTrue(one.get());
        }
        threads.shutdown();
    }
}
