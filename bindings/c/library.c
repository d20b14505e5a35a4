/*
 * The exports of the library. Each hands its call to the proved function of the same name, in the build that this
 * processor runs: plain x86-64, or x86-64-v2; with ONE_BUILD, for another machine, in the one that there is. The proved
 * functions take no null pointer, so one that stands for no bytes becomes one to nothing, and of a base that may be null
 * they are told whether there is one.
 */
#define URLCHECK_NO_INLINE
#ifndef ONE_BUILD
#include "processor.h"
#endif
#include "urlcheck.h"

/* What a caller sees of the shared library. All other names are hidden there. */
#define EXPORT __attribute__((visibility("default")))

/*
 * How a proved function that returns an answer is declared and called. For x86-64 it is handed the place of the answer
 * first (System V ABI for x86-64, section 3.2.3), so a call that writes to a pointer hands it on by a jump.
 */
#ifdef ONE_BUILD
#define ANSWERS(type, name, build, ...) type name##_##build(__VA_ARGS__)
#define ANSWER(name, ...) (*answer = name##_proved(__VA_ARGS__))
#define CALL(name, ...) name##_proved(__VA_ARGS__)
#else
#define ANSWERS(type, name, build, ...) void name##_##build(type *, __VA_ARGS__)
#define ANSWER(name, ...) CALL(name, answer, __VA_ARGS__)
#define CALL(name, ...)                                                                                                \
    (__atomic_load_n(&is_newer, __ATOMIC_RELAXED) ? name##_x86_64_v2(__VA_ARGS__) : name##_x86_64(__VA_ARGS__))
#endif

/* The functions of one build. */
#define DECLARE(build)                                                                                                 \
    ANSWERS(urlcheck_base, urlcheck_prepare, build, const uint8_t *, size_t, uint32_t);                                \
    ANSWERS(urlcheck_answer, urlcheck_check, build, const uint8_t *, size_t, uint32_t, const urlcheck_base *,          \
            urlcheck_bool);                                                                                            \
    urlcheck_bool urlcheck_is_valid_##build(const uint8_t *, size_t, uint32_t, const urlcheck_base *, urlcheck_bool);  \
    ANSWERS(urlcheck_fault_count, urlcheck_faults, build, const uint8_t *, size_t, uint32_t, const urlcheck_base *,    \
            urlcheck_bool, urlcheck_fault *, size_t);                                                                  \
    ANSWERS(urlcheck_record, urlcheck_resolve, build, const uint8_t *, size_t, uint32_t, const uint8_t *, size_t,      \
            urlcheck_bool, uint8_t *, size_t);                                                                         \
    ANSWERS(urlcheck_mended, urlcheck_mend, build, const uint8_t *, size_t, uint32_t, const uint8_t *, size_t,         \
            urlcheck_bool, uint8_t *, size_t);                                                                         \
    ANSWERS(urlcheck_batch, urlcheck_check_many, build, const uint8_t *, size_t, const uint64_t *, size_t, uint32_t,   \
            const urlcheck_base *, urlcheck_bool, uint8_t *, size_t, uint8_t *, size_t, uint64_t *, size_t);           \
    ANSWERS(urlcheck_batch, urlcheck_resolve_many, build, const uint8_t *, size_t, const uint64_t *, size_t, uint32_t, \
            const uint8_t *, size_t, urlcheck_bool, uint8_t *, size_t, uint8_t *, size_t, uint64_t *, size_t,          \
            uint64_t *, size_t, uint8_t *, size_t);                                                                    \
    ANSWERS(urlcheck_line, urlcheck_next_refused, build, const uint8_t *, size_t, size_t, uint32_t);                   \
    ANSWERS(urlcheck_written, urlcheck_report_begin, build, uint32_t, uint32_t, uint8_t *, size_t);                    \
    ANSWERS(urlcheck_written, urlcheck_report_file_begin, build, uint32_t, const uint8_t *, size_t, uint8_t *,         \
            size_t);                                                                                                   \
    ANSWERS(urlcheck_written, urlcheck_diagnostic, build, uint32_t, uint32_t, uint32_t,                                \
            const urlcheck_reported_numbers *, const uint8_t *, size_t, const uint8_t *, size_t, const uint8_t *,      \
            size_t, const uint8_t *, size_t, const uint8_t *, size_t, const uint8_t *, size_t, const uint8_t *,        \
            size_t, uint8_t *, size_t);                                                                                \
    ANSWERS(urlcheck_written, urlcheck_report_file_end, build, uint32_t, uint8_t *, size_t);                           \
    ANSWERS(urlcheck_written, urlcheck_report_end, build, uint32_t, uint32_t, uint8_t *, size_t);                      \
    ANSWERS(urlcheck_written, urlcheck_message, build, const uint8_t *, size_t, uint32_t, const urlcheck_base *,       \
            urlcheck_bool, uint32_t, uint32_t, size_t, uint8_t *, size_t);                                             \
    ANSWERS(urlcheck_counted, urlcheck_column, build, const uint8_t *, size_t, uint32_t, uint64_t, size_t);            \
    urlcheck_bool urlcheck_shows_mended_##build(uint32_t);                                                             \
    urlcheck_bool urlcheck_takes_unit_##build(uint32_t, uint32_t);                                                     \
    size_t urlcheck_text_##build(uint32_t, uint32_t, uint8_t *, size_t);                                               \
    size_t urlcheck_example_place_##build(uint32_t);                                                                   \
    uint32_t urlcheck_version_##build(void)

#ifdef ONE_BUILD

DECLARE(proved);

#else

DECLARE(x86_64);
DECLARE(x86_64_v2);

/* Whether the build for x86-64-v2 answers. A call before that is known gets the plain build, which says the same. */
static int is_newer;

/* The function of that build that is called most. */
static void (*check_here)(urlcheck_answer *, const uint8_t *, size_t, uint32_t, const urlcheck_base *,
                          urlcheck_bool) = urlcheck_check_x86_64;

/* Asks the processor when the library is loaded, so that no call has to see whether that was done. */
static __attribute__((constructor)) void ask(void) {
    if (!is_x86_64_v2()) return;
    __atomic_store_n(&check_here, urlcheck_check_x86_64_v2, __ATOMIC_RELAXED);
    __atomic_store_n(&is_newer, 1, __ATOMIC_RELAXED);
}

#endif

/* What is pointed to in place of null: of length 0, so it is neither read nor written. */
static uint8_t no_bytes[1];
static uint64_t no_numbers[1];
static urlcheck_fault no_faults[1];
static const urlcheck_base no_base;

/* A pointer of the caller as the proved functions take it, by what it is for. */
static const uint8_t *read_from(const uint8_t *bytes) { return bytes ? bytes : no_bytes; }
static uint8_t *written_to(uint8_t *bytes) { return bytes ? bytes : no_bytes; }
static uint64_t *counted_in(uint64_t *column) { return column ? column : no_numbers; }
static const urlcheck_base *held_in(const urlcheck_base *base) { return base ? base : &no_base; }

/* How much room there is: a text or a column that is left out has none, whatever the caller says. */
static size_t room_at(const void *out, size_t room) { return out ? room : 0; }

/* Whether null stands where something is to be read or written. */
static int lacks(const void *it, size_t length) { return !it && length; }

static const urlcheck_finding null_found = {URLCHECK_NULL, 0, 0, 0};

EXPORT void urlcheck_prepare_to(urlcheck_base *answer, const uint8_t *base, size_t length, uint32_t profile) {
    if (lacks(base, length)) {
        *answer = (urlcheck_base){null_found, profile, 0, 0, 0};
        return;
    }
    ANSWER(urlcheck_prepare, read_from(base), length, profile);
}

#ifdef ONE_BUILD

EXPORT void urlcheck_check_to(urlcheck_answer *answer, const uint8_t *text, size_t length, uint32_t profile,
                              const urlcheck_base *base) {
    if (lacks(text, length)) {
        *answer = (urlcheck_answer){.found = null_found};
        return;
    }
    ANSWER(urlcheck_check, read_from(text), length, profile, held_in(base), base != 0);
}

#else

/*
 * The function that is called most takes a branch for a null pointer to a text, as few calls hand one over. A function of
 * its own answers there, which gcc has to leave as it is: it would else hand over fewer arguments, and move them in each
 * call.
 */
#ifdef __clang__
#define RARE static __attribute__((noinline, cold))
#else
#define RARE static __attribute__((noinline, noclone, cold))
#endif

RARE void check_null(urlcheck_answer *answer, const uint8_t *text, size_t length, uint32_t profile,
                     const urlcheck_base *base) {
    if (lacks(text, length)) {
        *answer = (urlcheck_answer){.found = null_found};
        return;
    }
    __atomic_load_n(&check_here, __ATOMIC_RELAXED)(answer, read_from(text), length, profile, held_in(base), base != 0);
}

EXPORT void urlcheck_check_to(urlcheck_answer *answer, const uint8_t *text, size_t length, uint32_t profile,
                              const urlcheck_base *base) {
    if (!text) {
        check_null(answer, text, length, profile, base);
        return;
    }
    __atomic_load_n(&check_here, __ATOMIC_RELAXED)(answer, text, length, profile, held_in(base), base != 0);
}

#endif

EXPORT urlcheck_bool urlcheck_is_valid(const uint8_t *text, size_t length, uint32_t profile,
                                       const urlcheck_base *base) {
    if (lacks(text, length)) return 0;
    return CALL(urlcheck_is_valid, read_from(text), length, profile, held_in(base), base != 0);
}

EXPORT void urlcheck_faults_to(urlcheck_fault_count *answer, const uint8_t *text, size_t length, uint32_t profile,
                               const urlcheck_base *base, urlcheck_fault *out, size_t room) {
    if (lacks(text, length) || lacks(out, room)) {
        *answer = (urlcheck_fault_count){null_found, 0};
        return;
    }
    ANSWER(urlcheck_faults, read_from(text), length, profile, held_in(base), base != 0, out ? out : no_faults, room);
}

EXPORT void urlcheck_resolve_to(urlcheck_record *answer, const uint8_t *text, size_t length, uint32_t profile,
                                const uint8_t *base, size_t base_length, uint8_t *out, size_t room) {
    if (lacks(text, length) || lacks(base, base_length) || lacks(out, room)) {
        *answer = (urlcheck_record){.found = null_found};
        return;
    }
    ANSWER(urlcheck_resolve, read_from(text), length, profile, read_from(base), base_length, base != 0,
           written_to(out), room);
}

EXPORT void urlcheck_mend_to(urlcheck_mended *answer, const uint8_t *text, size_t length, uint32_t profile,
                             const uint8_t *base, size_t base_length, uint8_t *out, size_t room) {
    if (lacks(text, length) || lacks(base, base_length) || lacks(out, room)) {
        *answer = (urlcheck_mended){null_found, 0, 0, 0};
        return;
    }
    ANSWER(urlcheck_mend, read_from(text), length, profile, read_from(base), base_length, base != 0, written_to(out),
           room);
}

/* The proved functions expect an empty column in place of one that is left out. */
static const urlcheck_batch null_batch = {URLCHECK_NULL, 0, 0, 0};

EXPORT void urlcheck_check_many_to(urlcheck_batch *answer, const uint8_t *texts, size_t length,
                                   const uint64_t *offsets, size_t count, uint32_t profile, const urlcheck_base *base,
                                   uint8_t *verdicts, uint8_t *rules, uint64_t *places) {
    size_t rows = offsets ? count : 0;
    if (lacks(texts, length) || lacks(offsets, count)) {
        *answer = null_batch;
        return;
    }
    ANSWER(urlcheck_check_many, read_from(texts), length, offsets ? offsets : no_numbers, rows + 1, profile,
           held_in(base), base != 0, written_to(verdicts), room_at(verdicts, rows), written_to(rules),
           room_at(rules, rows), counted_in(places), room_at(places, rows));
}

EXPORT void urlcheck_resolve_many_to(urlcheck_batch *answer, const uint8_t *texts, size_t length,
                                     const uint64_t *offsets, size_t count, uint32_t profile, const uint8_t *base,
                                     size_t base_length, uint8_t *verdicts, uint8_t *rules, uint64_t *places,
                                     uint64_t *ends, uint8_t *out, size_t room) {
    static const uint64_t no_offsets[1];
    size_t rows = offsets ? count : 0;
    if (lacks(texts, length) || lacks(offsets, count) || lacks(base, base_length) || lacks(out, room)) {
        *answer = null_batch;
        return;
    }
    ANSWER(urlcheck_resolve_many, read_from(texts), length, offsets ? offsets : no_offsets, rows + 1, profile,
           read_from(base), base_length, base != 0, written_to(verdicts), room_at(verdicts, rows), written_to(rules),
           room_at(rules, rows), counted_in(places), room_at(places, rows), counted_in(ends), room_at(ends, rows + 1),
           written_to(out), room);
}

EXPORT void urlcheck_next_refused_to(urlcheck_line *answer, const uint8_t *lines, size_t length, size_t from,
                                     uint32_t profile) {
    if (lacks(lines, length)) {
        *answer = (urlcheck_line){null_found, 0, 0, 0, 0};
        return;
    }
    ANSWER(urlcheck_next_refused, read_from(lines), length, from, profile);
}

static const urlcheck_written null_written = {{URLCHECK_NULL, 0, 0, 0}, 0};

EXPORT void urlcheck_report_begin_to(urlcheck_written *answer, uint32_t format, uint32_t unit, uint8_t *out,
                                     size_t room) {
    if (lacks(out, room)) {
        *answer = null_written;
        return;
    }
    ANSWER(urlcheck_report_begin, format, unit, written_to(out), room);
}

EXPORT void urlcheck_report_file_begin_to(urlcheck_written *answer, uint32_t format, const uint8_t *file,
                                          size_t length, uint8_t *out, size_t room) {
    if (lacks(file, length) || lacks(out, room)) {
        *answer = null_written;
        return;
    }
    ANSWER(urlcheck_report_file_begin, format, read_from(file), length, written_to(out), room);
}

/* Whether null stands for a text of what is reported. */
static int lacks_text(const urlcheck_reported *it) {
    return lacks(it->file, it->file_length) || lacks(it->rule, it->rule_length) || lacks(it->uri, it->uri_length) ||
           lacks(it->message, it->message_length) || lacks(it->within, it->within_length) ||
           lacks(it->text, it->text_length) || lacks(it->fix, it->fix_length);
}

EXPORT void urlcheck_diagnostic_to(urlcheck_written *answer, uint32_t format, uint32_t is_coloured, uint32_t is_first,
                                   const urlcheck_reported *reported, uint8_t *out, size_t room) {
    const urlcheck_reported *it = reported;
    if (!it || lacks_text(it) || lacks(out, room)) {
        *answer = null_written;
        return;
    }
    ANSWER(urlcheck_diagnostic, format, is_coloured, is_first, &it->numbers, read_from(it->file), it->file_length,
           read_from(it->rule), it->rule_length, read_from(it->uri), it->uri_length, read_from(it->message),
           it->message_length, read_from(it->within), it->within_length, read_from(it->text), it->text_length,
           read_from(it->fix), it->fix_length, written_to(out), room);
}

EXPORT void urlcheck_report_file_end_to(urlcheck_written *answer, uint32_t format, uint8_t *out, size_t room) {
    if (lacks(out, room)) {
        *answer = null_written;
        return;
    }
    ANSWER(urlcheck_report_file_end, format, written_to(out), room);
}

EXPORT void urlcheck_report_end_to(urlcheck_written *answer, uint32_t format, uint32_t completion, uint8_t *out,
                                   size_t room) {
    if (lacks(out, room)) {
        *answer = null_written;
        return;
    }
    ANSWER(urlcheck_report_end, format, completion, written_to(out), room);
}

EXPORT void urlcheck_message_to(urlcheck_written *answer, const uint8_t *text, size_t length, uint32_t profile,
                                const urlcheck_base *base, uint32_t wording, uint32_t rule, size_t place, uint8_t *out,
                                size_t room) {
    if (lacks(text, length) || lacks(out, room)) {
        *answer = null_written;
        return;
    }
    ANSWER(urlcheck_message, read_from(text), length, profile, held_in(base), base != 0, wording, rule, place,
           written_to(out), room);
}

EXPORT void urlcheck_column_to(urlcheck_counted *answer, const uint8_t *text, size_t length, uint32_t unit,
                               uint64_t start, size_t place) {
    if (lacks(text, length)) {
        *answer = (urlcheck_counted){null_found, 0};
        return;
    }
    ANSWER(urlcheck_column, read_from(text), length, unit, start, place);
}

EXPORT urlcheck_bool urlcheck_shows_mended(uint32_t format) { return CALL(urlcheck_shows_mended, format); }

EXPORT urlcheck_bool urlcheck_takes_unit(uint32_t format, uint32_t unit) {
    return CALL(urlcheck_takes_unit, format, unit);
}

EXPORT size_t urlcheck_text(uint32_t what, uint32_t number, uint8_t *out, size_t room) {
    return CALL(urlcheck_text, what, number, written_to(out), room_at(out, room));
}

EXPORT size_t urlcheck_example_place(uint32_t rule) { return CALL(urlcheck_example_place, rule); }

EXPORT uint32_t urlcheck_version(void) { return CALL(urlcheck_version); }
