package example.yuccaeave.urlcheck;

import java.util.Optional;

/** The places of the parts of a text, in its UTF-16 units. */
final class Parts {
    /** The parts, in the order of {@code urlcheck_spans}. */
    static final int SCHEME = 0;
    static final int HOST = 1;
    static final int PORT = 2;
    static final int PATH = 3;
    static final int QUERY = 4;
    static final int FRAGMENT = 5;
    private static final int COUNT = 6;

    private final String text;
    /** The start and the end of each part. One that the text lacks has the end -1. */
    private final int[] ends;

    private Parts(String text, int[] ends) {
        this.text = text;
        this.ends = ends;
    }

    /** The parts of a text of this many bytes, whose spans the library has written. */
    static Parts of(String text, int byteLength, Answer answer, int at) {
        int[] ends = new int[2 * COUNT];
        boolean isAscii = byteLength == text.length();
        for (int part = 0; part < COUNT; part++) {
            int span = at + part * Answer.SPAN;
            int start = (int) answer.number(span);
            int end = start + (int) answer.number(span + 8);
            boolean isThere = answer.isTrue(span + 16);
            ends[2 * part] = isAscii ? start : Utf8.index(text, 0, start);
            ends[2 * part + 1] = !isThere ? -1 : isAscii ? end : Utf8.index(text, 0, end);
        }
        return new Parts(text, ends);
    }

    String text() {
        return text;
    }

    /** A part, if the text has it. */
    Optional<String> part(int part) {
        return Optional.ofNullable(slice(part));
    }

    /** The path, which each text has. */
    String path() {
        return slice(PATH);
    }

    private String slice(int part) {
        int end = ends[2 * part + 1];
        return end < 0 ? null : text.substring(ends[2 * part], end);
    }
}
