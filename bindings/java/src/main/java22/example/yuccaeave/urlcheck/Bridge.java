package example.yuccaeave.urlcheck;

import static java.lang.foreign.ValueLayout.ADDRESS;
import static java.lang.foreign.ValueLayout.JAVA_BOOLEAN;
import static java.lang.foreign.ValueLayout.JAVA_INT;
import static java.lang.foreign.ValueLayout.JAVA_LONG;

import java.lang.foreign.Arena;
import java.lang.foreign.FunctionDescriptor;
import java.lang.foreign.Linker;
import java.lang.foreign.MemoryLayout;
import java.lang.foreign.MemorySegment;
import java.lang.foreign.SymbolLookup;
import java.lang.invoke.MethodHandle;
import java.nio.file.Path;

/**
 * The library by {@code java.lang.foreign}, for Java 22 and later. The elements of arrays are handed over where they
 * are, so no garbage is collected while a call runs. That is short, except for a text of many megabytes.
 */
final class Bridge extends Library {
    /** The functions of the library, each with the shape that the header gives it. */
    private final MethodHandle version;
    private final MethodHandle prepare;
    private final MethodHandle check;
    private final MethodHandle isValid;
    private final MethodHandle faults;
    private final MethodHandle resolve;
    private final MethodHandle mend;
    private final MethodHandle checkMany;
    private final MethodHandle text;
    private final MethodHandle message;

    private Bridge(SymbolLookup library) {
        version = function(library, "urlcheck_version", FunctionDescriptor.of(JAVA_INT));
        prepare = writing(library, "urlcheck_prepare_to", ADDRESS, JAVA_LONG, JAVA_INT);
        check = writing(library, "urlcheck_check_to", ADDRESS, JAVA_LONG, JAVA_INT, ADDRESS);
        isValid = function(library, "urlcheck_is_valid",
                FunctionDescriptor.of(JAVA_BOOLEAN, ADDRESS, JAVA_LONG, JAVA_INT, ADDRESS));
        faults = writing(library, "urlcheck_faults_to", ADDRESS, JAVA_LONG, JAVA_INT, ADDRESS, ADDRESS, JAVA_LONG);
        resolve = writing(library, "urlcheck_resolve_to", ADDRESS, JAVA_LONG, JAVA_INT, ADDRESS, JAVA_LONG, ADDRESS,
                JAVA_LONG);
        mend = writing(library, "urlcheck_mend_to", ADDRESS, JAVA_LONG, JAVA_INT, ADDRESS, JAVA_LONG, ADDRESS,
                JAVA_LONG);
        checkMany = writing(library, "urlcheck_check_many_to", ADDRESS, JAVA_LONG, ADDRESS, JAVA_LONG, JAVA_INT,
                ADDRESS, ADDRESS, ADDRESS, ADDRESS);
        text = function(library, "urlcheck_text",
                FunctionDescriptor.of(JAVA_LONG, JAVA_INT, JAVA_INT, ADDRESS, JAVA_LONG));
        message = writing(library, "urlcheck_message_to", ADDRESS, JAVA_LONG, JAVA_INT, ADDRESS, JAVA_INT, JAVA_INT,
                JAVA_LONG, ADDRESS, JAVA_LONG);
    }

    /** Finds the library, by its path or by the name that the system knows. */
    @SuppressWarnings("restricted") // (to call C is what this class is for)
    static Library load(String file) {
        try {
            boolean isPath = file.indexOf('/') >= 0 || file.indexOf('\\') >= 0;
            Arena forever = Arena.global();
            return new Bridge(isPath ? SymbolLookup.libraryLookup(Path.of(file), forever)
                    : SymbolLookup.libraryLookup(file, forever));
        } catch (IllegalArgumentException reason) {
            throw notFound(file, reason);
        }
    }

    /** A function that writes its answer to its first pointer. */
    private static MethodHandle writing(SymbolLookup library, String name, MemoryLayout... arguments) {
        return function(library, name, FunctionDescriptor.ofVoid(arguments).insertArgumentLayouts(0, ADDRESS));
    }

    /** A function of the library. {@code critical(true)} lets it read arrays where they are. */
    @SuppressWarnings("restricted")
    private static MethodHandle function(SymbolLookup library, String name, FunctionDescriptor shape) {
        MemorySegment at = library.find(name)
                .orElseThrow(() -> new IllegalArgumentException("it has no function " + name));
        return Linker.nativeLinker().downcallHandle(at, shape, Linker.Option.critical(true));
    }

    /** An array as a pointer, which is null if the array is. */
    private static MemorySegment of(byte[] bytes) {
        return bytes == null ? MemorySegment.NULL : MemorySegment.ofArray(bytes);
    }

    private static MemorySegment of(long[] words) {
        return words == null ? MemorySegment.NULL : MemorySegment.ofArray(words);
    }

    /** The length of bytes that may be null, as for a base that isn't given. */
    private static long lengthOf(byte[] bytes) {
        return bytes == null ? 0 : bytes.length;
    }

    /** What a handle of a function of C throws: an error of the virtual machine, and nothing else. */
    private static Error thrown(Throwable reason) {
        return reason instanceof Error error ? error : new AssertionError(reason);
    }

    @Override
    int version() {
        try {
            return (int) version.invokeExact();
        } catch (Throwable reason) {
            throw thrown(reason);
        }
    }

    @Override
    void prepare(long[] answer, byte[] base, int profile) {
        try {
            prepare.invokeExact(of(answer), of(base), (long) base.length, profile);
        } catch (Throwable reason) {
            throw thrown(reason);
        }
    }

    @Override
    void check(long[] answer, byte[] bytes, int profile, long[] prepared) {
        try {
            check.invokeExact(of(answer), of(bytes), (long) bytes.length, profile, of(prepared));
        } catch (Throwable reason) {
            throw thrown(reason);
        }
    }

    @Override
    boolean isValid(byte[] bytes, int profile, long[] prepared) {
        try {
            return (boolean) isValid.invokeExact(of(bytes), (long) bytes.length, profile, of(prepared));
        } catch (Throwable reason) {
            throw thrown(reason);
        }
    }

    @Override
    void faults(long[] answer, byte[] bytes, int profile, long[] prepared, long[] out, int room) {
        try {
            faults.invokeExact(of(answer), of(bytes), (long) bytes.length, profile, of(prepared), of(out), (long) room);
        } catch (Throwable reason) {
            throw thrown(reason);
        }
    }

    @Override
    void resolve(long[] answer, byte[] bytes, int profile, byte[] base, byte[] out) {
        try {
            resolve.invokeExact(of(answer), of(bytes), (long) bytes.length, profile, of(base), lengthOf(base), of(out),
                    (long) out.length);
        } catch (Throwable reason) {
            throw thrown(reason);
        }
    }

    @Override
    void mend(long[] answer, byte[] bytes, int profile, byte[] base, byte[] out) {
        try {
            mend.invokeExact(of(answer), of(bytes), (long) bytes.length, profile, of(base), lengthOf(base), of(out),
                    (long) out.length);
        } catch (Throwable reason) {
            throw thrown(reason);
        }
    }

    @Override
    void checkMany(long[] answer, byte[] texts, long[] offsets, int profile, long[] prepared, byte[] verdicts,
            byte[] rules, long[] places) {
        try {
            checkMany.invokeExact(of(answer), of(texts), (long) texts.length, of(offsets),
                    (long) verdicts.length, profile, of(prepared), of(verdicts), of(rules),
                    of(places));
        } catch (Throwable reason) {
            throw thrown(reason);
        }
    }

    @Override
    long text(int what, int number, byte[] out) {
        try {
            return (long) text.invokeExact(what, number, of(out), (long) out.length);
        } catch (Throwable reason) {
            throw thrown(reason);
        }
    }

    @Override
    void message(long[] answer, byte[] bytes, int profile, int wording, int rule, long place, byte[] out) {
        try {
            message.invokeExact(of(answer), of(bytes), (long) bytes.length, profile, MemorySegment.NULL, wording, rule,
                    place, of(out), (long) out.length);
        } catch (Throwable reason) {
            throw thrown(reason);
        }
    }
}
