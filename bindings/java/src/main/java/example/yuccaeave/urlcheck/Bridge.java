package example.yuccaeave.urlcheck;

import com.sun.jna.Native;
import com.sun.jna.NativeLibrary;

/** The library by JNA, for Java up to 21. Java 22 and later take the class of this name of their own. */
final class Bridge extends Library {
    private Bridge() {
    }

    /** Binds the functions below to a library's. */
    static Library load(String file) {
        try {
            Native.register(Functions.class, NativeLibrary.getInstance(file));
        } catch (UnsatisfiedLinkError reason) {
            throw notFound(file, reason);
        }
        return new Bridge();
    }

    /** The functions by their names in C. JNA hands the elements of an array over, and takes back what is written. */
    static final class Functions {
        private Functions() {
        }

        static native int urlcheck_version();

        static native void urlcheck_prepare_to(long[] answer, byte[] base, long length, int profile);

        static native void urlcheck_check_to(long[] answer, byte[] text, long length, int profile, long[] prepared);

        static native byte urlcheck_is_valid(byte[] text, long length, int profile, long[] prepared);

        static native void urlcheck_faults_to(long[] answer, byte[] text, long length, int profile, long[] prepared,
                long[] out, long room);

        static native void urlcheck_resolve_to(long[] answer, byte[] text, long length, int profile, byte[] base,
                long baseLength, byte[] out, long room);

        static native void urlcheck_mend_to(long[] answer, byte[] text, long length, int profile, byte[] base,
                long baseLength, byte[] out, long room);

        static native void urlcheck_check_many_to(long[] answer, byte[] texts, long length, long[] offsets, long count,
                int profile, long[] prepared, byte[] verdicts, byte[] rules, long[] places);

        static native long urlcheck_text(int what, int number, byte[] out, long room);

        static native void urlcheck_message_to(long[] answer, byte[] text, long length, int profile, long[] prepared,
                int wording, int rule, long place, byte[] out, long room);
    }

    /** The length of bytes that may be null, as for a base that isn't given. */
    private static long lengthOf(byte[] bytes) {
        return bytes == null ? 0 : bytes.length;
    }

    @Override
    int version() {
        return Functions.urlcheck_version();
    }

    @Override
    void prepare(long[] answer, byte[] base, int profile) {
        Functions.urlcheck_prepare_to(answer, base, base.length, profile);
    }

    @Override
    void check(long[] answer, byte[] text, int profile, long[] prepared) {
        Functions.urlcheck_check_to(answer, text, text.length, profile, prepared);
    }

    @Override
    boolean isValid(byte[] text, int profile, long[] prepared) {
        return Functions.urlcheck_is_valid(text, text.length, profile, prepared) != 0;
    }

    @Override
    void faults(long[] answer, byte[] text, int profile, long[] prepared, long[] out, int room) {
        Functions.urlcheck_faults_to(answer, text, text.length, profile, prepared, out, room);
    }

    @Override
    void resolve(long[] answer, byte[] text, int profile, byte[] base, byte[] out) {
        Functions.urlcheck_resolve_to(answer, text, text.length, profile, base, lengthOf(base), out, out.length);
    }

    @Override
    void mend(long[] answer, byte[] text, int profile, byte[] base, byte[] out) {
        Functions.urlcheck_mend_to(answer, text, text.length, profile, base, lengthOf(base), out, out.length);
    }

    @Override
    void checkMany(long[] answer, byte[] texts, long[] offsets, int profile, long[] prepared, byte[] verdicts,
            byte[] rules, long[] places) {
        Functions.urlcheck_check_many_to(answer, texts, texts.length, offsets, verdicts.length, profile, prepared,
                verdicts, rules, places);
    }

    @Override
    long text(int what, int number, byte[] out) {
        return Functions.urlcheck_text(what, number, out, out.length);
    }

    @Override
    void message(long[] answer, byte[] text, int profile, int wording, int rule, long place, byte[] out) {
        Functions.urlcheck_message_to(answer, text, text.length, profile, null, wording, rule, place, out, out.length);
    }
}
