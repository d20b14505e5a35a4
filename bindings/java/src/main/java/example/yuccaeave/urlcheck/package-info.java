/**
 * Whether a text is a valid URL string (WHATWG URL Standard, sections 3.4 and 4.3), alone or against a base.
 *
 * <p>{@link example.yuccaeave.urlcheck.UrlCheck} checks a text without a base, under the standard profile; a
 * {@link example.yuccaeave.urlcheck.Checker} has another profile, or a base. The checker itself is a library for
 * C, of which each answer is proved. Up to Java 21 it is called by JNA, and from Java 22 on by {@code
 * java.lang.foreign}. There is no state, nothing has to be closed, and any thread may call.
 *
 * <p>Of each call, a text that is {@code null} is a {@link NullPointerException}, one with a lone surrogate or of more
 * than 715,827,882 UTF-16 units an {@link IllegalArgumentException}. If no memory is left, the call ends with an
 * {@link OutOfMemoryError}; if the library isn't found, with an {@link UnsatisfiedLinkError}.
 */
package example.yuccaeave.urlcheck;
