package example.yuccaeave.urlcheck;

import java.nio.charset.StandardCharsets;

/** Texts as bytes of UTF-8, and places in them. */
final class Utf8 {
    /** A text of this many units has at most as many bytes as an array of Java holds. */
    static final int MOST_UNITS = Integer.MAX_VALUE / 3;

    private Utf8() {
    }

    /** The bytes of a text, which has no lone surrogate and isn't too long. */
    static byte[] encode(String text) {
        requireLength(text.length());
        int lone = loneSurrogate(text);
        if (lone >= 0) {
            throw new IllegalArgumentException("the text has a lone surrogate at index " + lone);
        }
        return text.getBytes(StandardCharsets.UTF_8);
    }

    /** Refuses a text whose bytes may be too many for an array, before any memory is taken for them. */
    static void requireLength(int units) {
        if (units > MOST_UNITS) {
            throw new IllegalArgumentException("the text has more than " + MOST_UNITS + " UTF-16 units");
        }
    }

    /** The index of the first lone surrogate, or -1. */
    private static int loneSurrogate(String text) {
        int length = text.length();
        for (int at = 0; at < length; at++) {
            if (Character.isSurrogate(text.charAt(at))) {
                boolean isPair = at + 1 < length && Character.isSurrogatePair(text.charAt(at), text.charAt(at + 1));
                if (!isPair) {
                    return at;
                }
                at++;
            }
        }
        return -1;
    }

    /** The text of the first bytes, which are UTF-8. */
    static String decode(byte[] bytes, int length) {
        return new String(bytes, 0, length, StandardCharsets.UTF_8);
    }

    /** The index after as many bytes from another index on. */
    static int index(String text, int from, long bytes) {
        int at = from;
        for (long left = bytes; left > 0;) {
            int codePoint = text.codePointAt(at);
            left -= width(codePoint);
            at += Character.charCount(codePoint);
        }
        return at;
    }

    /** The bytes of as many code points at the beginning of a text. */
    static long bytes(String text, long codePoints) {
        long bytes = 0;
        int at = 0;
        for (long left = codePoints; left > 0; left--) {
            int codePoint = text.codePointAt(at);
            bytes += width(codePoint);
            at += Character.charCount(codePoint);
        }
        return bytes;
    }

    /** How many bytes a code point has. */
    private static int width(int codePoint) {
        return codePoint < 0x80 ? 1 : codePoint < 0x800 ? 2 : codePoint < 0x10000 ? 3 : 4;
    }
}
