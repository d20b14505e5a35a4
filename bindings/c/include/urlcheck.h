/*
 * The checker of valid URL strings (WHATWG URL Standard, sections 3.4 and 4.3), alone or against a base.
 *
 * A text is bytes and their length. It may hold any bytes, and needs no NUL at its end. Each function has a proved
 * contract: on every input it is safe, ends, and returns what this header says. It requires only this of its caller:
 *
 * - a pointer points to as many bytes or elements as its length says;
 * - nothing else writes to the arguments during the call, and an `out` overlaps no other argument;
 * - malloc, realloc and free are the C library's, or behave like them, and the call isn't made from a signal handler.
 *
 * A null pointer stands for no bytes if its length or room is 0. Otherwise the call answers URLCHECK_NULL, and neither
 * reads nor writes anything.
 *
 * There is no setup, no state and nothing to free: each call frees all memory that it took, and keeps no pointer. A base
 * for many texts is prepared once, as a value without a pointer. Any number of threads may call at once.
 *
 * A place counts from 0, in code points or in bytes. A profile is a number: see urlcheck_profile.
 * For C89 and later, and C++98 and later, if the compiler has <stdint.h>. urlcheck.ffi.h has only the declarations, for
 * tools that read C without a preprocessor.
 */
#ifndef URLCHECK_H
#define URLCHECK_H

#include <stddef.h>
#include <stdint.h>

/* The version of this header: 10000 times its first number, 100 times its second, and its third. */
#define URLCHECK_VERSION 500

/* A truth value, of one byte: 0 or 1. */
#if defined(__cplusplus)
typedef bool urlcheck_bool;
#elif defined(__STDC_VERSION__) && __STDC_VERSION__ >= 199901L
#include <stdbool.h>
typedef bool urlcheck_bool;
#else
typedef unsigned char urlcheck_bool;
#endif

#ifdef __cplusplus
extern "C" {
#endif

/* The profile under which a text and its base are checked. Each accepts whatever the one before it accepts. */
enum urlcheck_profile {
    URLCHECK_STANDARD = 0, /* the URL Standard's valid URL strings */
    URLCHECK_WIDE = 1,     /* also `_` and hyphens anywhere in domains, any segments after an authority */
    URLCHECK_PARSER = 2    /* each text that the Standard's parser accepts without a validation error, and no other */
};

/* How a call ended. */
enum urlcheck_outcome {
    URLCHECK_VALID = 0,        /* the text is a valid URL string */
    URLCHECK_REFUSED = 1,      /* the text violates a rule */
    URLCHECK_NO_UTF8 = 2,      /* the text isn't UTF-8 */
    URLCHECK_BASE_REFUSED = 3, /* the base violates a rule; the text wasn't checked */
    URLCHECK_BASE_NO_UTF8 = 4, /* the base isn't UTF-8; the text wasn't checked */
    URLCHECK_MEMORY = 5,       /* malloc gave no memory; the text may be valid or not */
    URLCHECK_NO_PROFILE = 6,   /* no profile has the number that was given */
    URLCHECK_NO_BASE = 7,      /* the base has another profile than the call, is all zeros, or has no scheme's number */
    URLCHECK_MENDED = 8,       /* the text violates a rule, and urlcheck_mend wrote a valid one in its place */
    URLCHECK_DONE = 9,         /* of batches and reports: they did what was asked */
    URLCHECK_NO_FORMAT = 10,   /* no format of reports has the number that was given */
    URLCHECK_NO_UNIT = 11,     /* no unit of columns has the number, or the format can't count the unit */
    URLCHECK_NO_RULE = 12,     /* no rule has the number, of texts or of lines */
    URLCHECK_NO_KIND = 13,     /* no kind of mended text has the number */
    URLCHECK_NO_COMPLETION = 14, /* no urlcheck_completion has the number */
    URLCHECK_NO_PLACE = 15,    /* the place is after the end of the text */
    URLCHECK_NO_COLUMN = 16,   /* a line or a column isn't from 1 to 4294967295 */
    URLCHECK_NO_OFFSETS = 17,  /* an offset is less than the one before it, or after the end of the texts */
    URLCHECK_NULL = 18,        /* a null pointer in place of bytes, of offsets or of what is reported */
    URLCHECK_FILE_NO_UTF8 = 19,  /* the name of the file isn't UTF-8 */
    URLCHECK_MENDED_NO_UTF8 = 20, /* the mended text isn't UTF-8 */
    URLCHECK_REPORTED_NO_UTF8 = 21, /* a rule's name or address, a message, or `within` isn't UTF-8 */
    URLCHECK_NO_WORDING = 22     /* no urlcheck_wording has the number */
};

/* The rules that a text can violate. A refusal names the rule with the lowest number at the first wrong place. */
enum urlcheck_rule {
    URLCHECK_NO_SCHEME = 1,
    URLCHECK_OPAQUE_BASE = 2,
    URLCHECK_TWO_SLASHES = 3,
    URLCHECK_HOST_MISSING = 4,
    URLCHECK_HOST_DOMAIN = 5,
    URLCHECK_HOST_NUMBER = 6,
    URLCHECK_HOST_IPV6 = 7,
    URLCHECK_HOST_CODE_POINT = 8,
    URLCHECK_PORT_DIGIT = 9,
    URLCHECK_PORT_RANGE = 10,
    URLCHECK_FIRST_SEGMENT_EMPTY = 11,
    URLCHECK_DRIVE_AFTER_HOST = 12,
    URLCHECK_CODE_POINT = 13,
    URLCHECK_PERCENT = 14
};

/* What was found about a text, or about its base if the verdict is about the base. */
typedef struct urlcheck_finding {
    uint32_t verdict;  /* one of urlcheck_outcome */
    uint32_t rule;     /* one of urlcheck_rule if the text or the base is refused, otherwise 0 */
    size_t place;      /* in code points: the first wrong place of a refusal; if the bytes aren't UTF-8, the end of
                          their longest prefix that is; otherwise 0 */
    size_t byte_place; /* the same place in bytes */
} urlcheck_finding;

/* A part of a text, in bytes and without its delimiters. If the text lacks the part, start and length are 0. */
typedef struct urlcheck_span {
    size_t start;
    size_t length;
    urlcheck_bool present;
} urlcheck_span;

/* The parts of a valid text. The path begins with its `/` and is always there, though it may be empty. */
typedef struct urlcheck_spans {
    urlcheck_span scheme;
    urlcheck_span host;
    urlcheck_span port;
    urlcheck_span path;
    urlcheck_span query;
    urlcheck_span fragment;
} urlcheck_spans;

/* The answer of a check: the parts of a valid text, or no parts. */
typedef struct urlcheck_answer {
    urlcheck_finding found;
    urlcheck_spans parts;
} urlcheck_answer;

/* The kinds of hosts (section 3.1). */
enum urlcheck_host {
    URLCHECK_DOMAIN = 1,      /* a domain, of a special URL */
    URLCHECK_IPV4 = 2,        /* an IPv4 address */
    URLCHECK_IPV6 = 3,        /* an IPv6 address, written in brackets */
    URLCHECK_OPAQUE_HOST = 4, /* an opaque host, of a URL that isn't special */
    URLCHECK_EMPTY_HOST = 5   /* the empty host */
};

/*
 * The answer of urlcheck_resolve: the length in bytes of the record's text, and where its parts are in it. The path is
 * always there. If it isn't opaque or empty, it begins with `/`, and its segments are between two `/`. A `/.` before
 * the path of a record without a host isn't part of the path.
 */
typedef struct urlcheck_record {
    urlcheck_finding found;
    size_t length;        /* 0 if there is no record */
    urlcheck_spans parts; /* if there is no record, none is present */
    uint32_t host;        /* one of urlcheck_host, or 0 if there is none */
    uint32_t opaque_path; /* 1 if the path is opaque, otherwise 0 */
} urlcheck_record;

/* How a mended text differs from the refused one. */
enum urlcheck_mend_kind {
    URLCHECK_SAME = 1,    /* a second parser reads both as the same URL */
    URLCHECK_ESCAPED = 2, /* it doesn't, but only some code points were percent-encoded */
    URLCHECK_CHANGED = 3  /* neither: check that the text is what was meant */
};

/* The answer of urlcheck_mend about the mended text. If there is none, each number is 0. */
typedef struct urlcheck_mended {
    urlcheck_finding found;
    uint32_t kind;    /* one of urlcheck_mend_kind */
    uint32_t offered; /* 1 if reports offer it in place of the refused text, otherwise 0 */
    size_t length;    /* its length in bytes */
} urlcheck_mended;

/* A rule that a text violates at a place, in code points and in bytes. */
typedef struct urlcheck_fault {
    uint32_t rule;
    size_t place;
    size_t byte_place;
} urlcheck_fault;

/* The answer of urlcheck_faults: the verdict of urlcheck_check, and how many faults the text has. */
typedef struct urlcheck_fault_count {
    urlcheck_finding found;
    size_t count;
} urlcheck_fault_count;

/*
 * A base: what a verdict needs to know about it. Only urlcheck_prepare makes one. It is a value, which you may copy,
 * keep and use from many threads. The bytes that it was made from aren't needed any more, and there is nothing to free.
 */
typedef struct urlcheck_base {
    urlcheck_finding found; /* URLCHECK_VALID, or why no text is checked against the base */
    uint32_t profile;       /* under which the base was checked, and texts are checked against it */
    uint32_t scheme;        /* 1 ftp, 2 http or ws, 3 https or wss, 4 file, 5 another, 0 if the base isn't valid */
    uint32_t opaque_path;   /* 1 if the path is opaque, otherwise 0 */
    uint32_t empty_host;    /* 1 if the host is the empty one, otherwise 0 */
} urlcheck_base;

/* What is wrong with a line that isn't checked, for reports. The numbers come after the rules' numbers. */
enum urlcheck_line_rule {
    URLCHECK_LINE_NO_UTF8 = 101,      /* the line isn't UTF-8 */
    URLCHECK_LINE_TOO_LONG = 102,     /* the line has more than 65536 bytes */
    URLCHECK_LINE_NO_FILE = 103,      /* of a line that isn't FILE:LINE:COLUMN:LINK: FILE is empty */
    URLCHECK_LINE_NO_LINE = 104,      /* LINE is missing */
    URLCHECK_LINE_LINE_RANGE = 105,   /* LINE isn't from 1 to 4294967295 */
    URLCHECK_LINE_NO_COLUMN = 106,    /* COLUMN is missing */
    URLCHECK_LINE_COLUMN_RANGE = 107, /* COLUMN isn't from 1 to 4294967295 */
    URLCHECK_LINE_NO_LINK = 108       /* LINK is missing */
};

/* The formats of reports, as `urlcheck lint --format` names them. */
enum urlcheck_format {
    URLCHECK_GNU = 0,
    URLCHECK_CARET = 1,
    URLCHECK_JSON = 2,
    URLCHECK_GITHUB = 3,
    URLCHECK_SARIF = 4,
    URLCHECK_CHECKSTYLE = 5,
    URLCHECK_JUNIT = 6,
    URLCHECK_GITLAB = 7,
    URLCHECK_RDJSON = 8
};

/* What columns count, as `urlcheck lint --columns` names it. SARIF counts code points or UTF-16, rdjson only bytes. */
enum urlcheck_unit {
    URLCHECK_CODE_POINTS = 0,
    URLCHECK_BYTES = 1, /* the bytes of UTF-8 */
    URLCHECK_UTF16 = 2, /* the code units of UTF-16 */
    URLCHECK_SCREEN = 3 /* the columns of a screen, on which a tab goes to column 9, 17 and so on */
};

/* How the run over the files of a report ended. SARIF and JUnit say so. */
enum urlcheck_completion {
    URLCHECK_WHOLE = 0,  /* every file was read to its end */
    URLCHECK_UNREAD = 1, /* a file couldn't be read to its end */
    URLCHECK_STOPPED = 2 /* something stopped the run before the last file's end */
};

/* The fixed texts that urlcheck_text writes, and what each is about. */
enum urlcheck_text {
    URLCHECK_RULE_NAME = 0,      /* of a rule of texts or of lines: its name, such as `host-domain` */
    URLCHECK_RULE_SENTENCE = 1,  /* of a rule of texts or of lines: what is wrong at the place, in a sentence */
    URLCHECK_RULE_ADDRESS = 2,   /* of a rule of texts: the address of its section of the URL Standard */
    URLCHECK_RULE_REQUIRES = 3,  /* of a rule of texts or of lines: what it requires */
    URLCHECK_RULE_SECTION = 4,   /* of a rule of texts, like the next three: the section and its term for the rule */
    URLCHECK_EXAMPLE_BASE = 5,   /* the base for the example, or empty */
    URLCHECK_EXAMPLE = 6,        /* a text that is refused by the rule */
    URLCHECK_EXAMPLE_MENDED = 7, /* a valid text that its author may have meant */
    URLCHECK_FORMAT_NAME = 8,    /* of a format: its name, such as `sarif` */
    URLCHECK_UNIT_NAME = 9       /* of a unit of columns: its name, such as `code-points` */
};

/* How a sentence names a profile and a base: in the way in which its reader chooses them. */
enum urlcheck_wording {
    URLCHECK_WORDING_OPTIONS = 0,   /* `--profile wide` and `--base`, as on a command line */
    URLCHECK_WORDING_ARGUMENTS = 1, /* `profile='wide'` and `base=`, as in a call of Python */
    URLCHECK_WORDING_SQL = 2,       /* `profile 'wide'` and `base`, as in a statement of SQL */
    URLCHECK_WORDING_NONE = 3       /* neither is named */
};

/* The answer of a batch. */
typedef struct urlcheck_batch {
    uint32_t outcome; /* URLCHECK_DONE, or why nothing was checked and nothing written: one of urlcheck_outcome */
    size_t row;       /* for URLCHECK_NO_OFFSETS the first text whose offsets are wrong, from 0; otherwise 0 */
    size_t valid;     /* how many texts are valid */
    size_t length;    /* for urlcheck_resolve_many the length of the texts that it writes, otherwise 0 */
} urlcheck_batch;

/* The answer of urlcheck_next_refused: a line that isn't valid, in bytes. */
typedef struct urlcheck_line {
    urlcheck_finding found; /* what was found about the line; URLCHECK_VALID if no further line is refused */
    size_t start;           /* where the line begins in the buffer */
    size_t length;          /* the length of its text, without the line's end */
    size_t next;            /* where the next line begins: the place to go on from */
    size_t passed;          /* how many valid lines the call passed before it */
} urlcheck_line;

/* The answer of a call that writes a text: `found` says URLCHECK_DONE, or why there is no text. */
typedef struct urlcheck_written {
    urlcheck_finding found; /* if a text isn't UTF-8, also how far it is; of a message also which place it names */
    size_t length;          /* the length of the text in bytes, even if it isn't written for lack of room; or 0 */
} urlcheck_written;

/* The answer of urlcheck_column. */
typedef struct urlcheck_counted {
    urlcheck_finding found; /* URLCHECK_DONE, or why there is no column */
    uint64_t column;        /* the column, from 1; at most 18446744073709551615; 0 if there is none */
} urlcheck_counted;

/* Where something is in a file. Lines and columns are from 1 to 4294967295; the end is after the last code point. */
typedef struct urlcheck_region {
    uint64_t line;
    uint64_t column;
    uint64_t end_line;
    uint64_t end_column;
} urlcheck_region;

/* The numbers of a diagnostic. */
typedef struct urlcheck_reported_numbers {
    urlcheck_region region;     /* what is wrong: for a rule of texts up to the place after `place`, if there is one */
    urlcheck_region fix_region; /* the text that the fix replaces, or zeros if it may not be written there */
    size_t place;               /* where the text is wrong, in code points from 0 */
    uint64_t repeat;            /* how many earlier diagnostics in the file have the same rule, place and text, for
                                   GitLab's fingerprint; 0 is always allowed */
    uint32_t kind;              /* of the fix: one of urlcheck_mend_kind, or 0 if there is none */
    uint32_t offered;           /* 0 if the fix isn't offered, as urlcheck_mended says */
    size_t named;               /* the place of the code point that the message names, which `caret` marks: that of
                                   urlcheck_message's answer; one before `place` stands for `place`, so 0 always does */
} urlcheck_reported_numbers;

/* A diagnostic, for urlcheck_diagnostic. Its texts are UTF-8. */
typedef struct urlcheck_reported {
    urlcheck_reported_numbers numbers;
    const uint8_t *file; /* the name of the file */
    size_t file_length;
    const uint8_t *rule; /* the name of the rule: one of the library's, or one of your own */
    size_t rule_length;
    const uint8_t *uri; /* the address of the rule (URLCHECK_RULE_ADDRESS), or empty */
    size_t uri_length;
    const uint8_t *message; /* what is wrong, in a sentence without a full stop (urlcheck_message) */
    size_t message_length;
    const uint8_t *within; /* the part of the file in which it is, for the message's end; or empty */
    size_t within_length;
    const uint8_t *text; /* the text that is wrong */
    size_t text_length;
    const uint8_t *fix; /* what to write in its place; read only if the kind isn't 0 */
    size_t fix_length;
} urlcheck_reported;

/*
 * Checks a base under a profile, for calls with the same profile. If it isn't valid, `found` says why, and those calls
 * say the same. A result with URLCHECK_NULL isn't a base.
 */
void urlcheck_prepare_to(urlcheck_base *answer, const uint8_t *base, size_t length, uint32_t profile);

/*
 * Whether the text is a valid URL string: without a base if `base` is null, otherwise against a base that
 * urlcheck_prepare made under the same profile. If the base has another profile or is all zeros, the verdict is
 * URLCHECK_NO_BASE; if it isn't valid, the verdict is the base's. Each call looks at the profile first, then at the
 * text, and then at the base: a text that isn't UTF-8 is URLCHECK_NO_UTF8 with any base.
 */
void urlcheck_check_to(urlcheck_answer *answer, const uint8_t *text, size_t length, uint32_t profile,
                       const urlcheck_base *base);

/*
 * Whether the text is known to be a valid URL string, with a base as for urlcheck_check: the fastest call. True means
 * that it is valid. False means that it isn't, that malloc gave no memory for a domain that needs some, or that it
 * wasn't checked; urlcheck_check tells these apart.
 */
urlcheck_bool urlcheck_is_valid(const uint8_t *text, size_t length, uint32_t profile, const urlcheck_base *base);

/*
 * Writes all faults of the text, with a base as for urlcheck_check, to the start of `out`, by place and at one place by
 * the rule's number, as many as fit into `room` elements. The count is the number of all faults, and may be larger than
 * `room`; it is 0 if and only if the verdict isn't URLCHECK_REFUSED. Elements after the last one written stay as they
 * are.
 */
void urlcheck_faults_to(urlcheck_fault_count *answer, const uint8_t *text, size_t length, uint32_t profile,
                        const urlcheck_base *base, urlcheck_fault *out, size_t room);

/*
 * Writes the text of the URL record that the text denotes (sections 4.4 and 4.5) to the start of `out`, without a NUL,
 * if `room` bytes hold it, and returns its length and where its parts are. If they don't, `out` stays as it is and the
 * answer is the same, so a second call with enough room writes the text. If the verdict isn't URLCHECK_VALID, `out`
 * stays as it is.
 *
 * If `base` is null, there is no base. Otherwise it has the bytes of a base, which is checked under the same profile;
 * with a length of 0 it is the empty text, which is refused.
 */
void urlcheck_resolve_to(urlcheck_record *answer, const uint8_t *text, size_t length, uint32_t profile,
                         const uint8_t *base, size_t base_length, uint8_t *out, size_t room);

/*
 * Writes a valid URL string in place of a refused text, from which it differs by local edits, to the start of `out`, as
 * urlcheck_resolve does, and with a base as for urlcheck_resolve. The verdict is URLCHECK_VALID if the text is valid
 * itself, URLCHECK_MENDED if there is a mended text, and URLCHECK_REFUSED, with the text's rule and place, if there is
 * none. It is also URLCHECK_MEMORY if a second parser would make a text of 4 GiB or more.
 */
void urlcheck_mend_to(urlcheck_mended *answer, const uint8_t *text, size_t length, uint32_t profile,
                      const uint8_t *base, size_t base_length, uint8_t *out, size_t room);

/*
 * Checks many texts under a profile, with a base as for urlcheck_check. Text i is the bytes from offsets[i] to
 * offsets[i + 1] of `texts`, so there are `count` + 1 offsets. What urlcheck_check answers for text i goes to
 * verdicts[i], rules[i] and, in code points, places[i]. Each of these columns is null or has `count` elements. If the
 * outcome isn't URLCHECK_DONE, nothing is written.
 */
void urlcheck_check_many_to(urlcheck_batch *answer, const uint8_t *texts, size_t length, const uint64_t *offsets,
                            size_t count, uint32_t profile, const urlcheck_base *base, uint8_t *verdicts,
                            uint8_t *rules, uint64_t *places);

/*
 * Resolves many texts under a profile, with the bytes of a base as for urlcheck_resolve, which are read once for all of
 * them. Texts and columns are as for urlcheck_check_many, with what urlcheck_resolve answers for text i and the base: if
 * the base is refused, each text that is UTF-8 has the base's verdict, rule and place.
 *
 * The texts of the records are one after the other at the start of `out`: the record of text i is from ends[i] to
 * ends[i + 1], and is empty if the verdict isn't URLCHECK_VALID. So `ends` has `count` + 1 elements, or is null. The
 * answer has the length of all of them. If `room` is less, `out` stays as it is and everything else is written, so a
 * second call with enough room writes them. If malloc gave no memory for a record, the verdict is URLCHECK_MEMORY. If
 * the outcome isn't URLCHECK_DONE, nothing is written.
 */
void urlcheck_resolve_many_to(urlcheck_batch *answer, const uint8_t *texts, size_t length, const uint64_t *offsets,
                              size_t count, uint32_t profile, const uint8_t *base, size_t base_length,
                              uint8_t *verdicts, uint8_t *rules, uint64_t *places, uint64_t *ends, uint8_t *out,
                              size_t room);

/*
 * Checks the lines of a buffer without a base under a profile, from the byte `from` on, up to the first that isn't
 * valid. A line ends with LF, and one CR before that isn't part of its text. Bytes after the last LF are a line too. An
 * empty line is the empty text. `found` is what urlcheck_check finds about the line. If all lines are valid, it is
 * URLCHECK_VALID, and `start` and `next` are the end of the buffer. The next call goes on from `next`. If `from` is after
 * the end of the buffer, `found` is URLCHECK_NO_PLACE, and each number is 0: nothing is left to go on from.
 */
void urlcheck_next_refused_to(urlcheck_line *answer, const uint8_t *lines, size_t length, size_t from,
                              uint32_t profile);

/*
 * Reports, as `urlcheck lint` writes them: a beginning, for each file its own beginning, its diagnostics and its end,
 * and then an end. Each call writes its text, in UTF-8 and without a NUL, to the start of `out` if `room` bytes hold
 * it, and returns its length, which may be 0. Otherwise `out` stays as it is. All calls of a report have the same unit.
 */
void urlcheck_report_begin_to(urlcheck_written *answer, uint32_t format, uint32_t unit, uint8_t *out, size_t room);

void urlcheck_report_file_begin_to(urlcheck_written *answer, uint32_t format, const uint8_t *file, size_t length,
                                   uint8_t *out, size_t room);

/*
 * A diagnostic of the report. `is_coloured` is 1 if it is to have the colours of a terminal, as only `gnu` and `caret`
 * have them, otherwise 0. `is_first` is 1 if it is the first one, otherwise 0. There is none if no format has the
 * number (URLCHECK_NO_FORMAT); if the text isn't UTF-8 (URLCHECK_NO_UTF8), or one of its two places is after its end
 * (URLCHECK_NO_PLACE); if the file's name isn't UTF-8 (URLCHECK_FILE_NO_UTF8), or another text except the fix
 * (URLCHECK_REPORTED_NO_UTF8); if a line or a column is out of range, or a region ends before it begins
 * (URLCHECK_NO_COLUMN); if no kind has the number (URLCHECK_NO_KIND), or the fix isn't UTF-8
 * (URLCHECK_MENDED_NO_UTF8). SARIF and rdjson write an edit, so they leave out a fix that isn't offered or has no
 * region. `caret` leaves out one that isn't offered if the text has two schemes or a link after a space, since
 * urlcheck_message then says which part to write. Formats without mended texts (urlcheck_shows_mended) leave out every
 * fix.
 */
void urlcheck_diagnostic_to(urlcheck_written *answer, uint32_t format, uint32_t is_coloured, uint32_t is_first,
                            const urlcheck_reported *reported, uint8_t *out, size_t room);

void urlcheck_report_file_end_to(urlcheck_written *answer, uint32_t format, uint8_t *out, size_t room);

void urlcheck_report_end_to(urlcheck_written *answer, uint32_t format, uint32_t completion, uint8_t *out, size_t room);

/*
 * The sentence on a violation of a text under a profile, as in the format gnu after `error: `. The base is that of
 * urlcheck_check: the sentence may name a wider profile, if that accepts the text against it. The rule is one of
 * urlcheck_rule or urlcheck_line_rule, the place is in code points, and the wording is one of urlcheck_wording. With
 * URLCHECK_DONE `found` has the place of the code point that the sentence names: this one, or a later one of the host.
 */
void urlcheck_message_to(urlcheck_written *answer, const uint8_t *text, size_t length, uint32_t profile,
                         const urlcheck_base *base, uint32_t wording, uint32_t rule, size_t place, uint8_t *out,
                         size_t room);

/* The column of a place, in a unit, if the text begins in the column `start`. The place is in code points. */
void urlcheck_column_to(urlcheck_counted *answer, const uint8_t *text, size_t length, uint32_t unit, uint64_t start,
                        size_t place);

/* Whether diagnostics of the format say what to write in place of a text; false if no format has the number. */
urlcheck_bool urlcheck_shows_mended(uint32_t format);

/* Whether the format has columns that count the unit; false if there is no such format or unit. */
urlcheck_bool urlcheck_takes_unit(uint32_t format, uint32_t unit);

/*
 * Writes a fixed text, in UTF-8 and without a NUL, to the start of `out` if `room` bytes hold it, and returns its
 * length, or 0 if there is none. Otherwise `out` stays as it is, and it may be null. `what` is one of urlcheck_text;
 * `number` is the number of the rule, format or unit.
 */
size_t urlcheck_text(uint32_t what, uint32_t number, uint8_t *out, size_t room);

/* The place at which the example of the rule is refused, in code points; 0 if no rule has the number. */
size_t urlcheck_example_place(uint32_t rule);

/* The version of the library; URLCHECK_VERSION is the header's. */
uint32_t urlcheck_version(void);

/*
 * Each call that ends with _to writes its answer to its first argument, which isn't null. Its form without that ending
 * returns the answer: `answer = urlcheck_check(..)` does what `urlcheck_check_to(&answer, ..)` does. These forms are part
 * of your program, and the library doesn't export them; with URLCHECK_NO_INLINE there are none.
 */
#ifndef URLCHECK_NO_INLINE
#if defined(__cplusplus)
#define URLCHECK_INLINE inline
#elif defined(__STDC_VERSION__) && __STDC_VERSION__ >= 199901L
#define URLCHECK_INLINE static inline
#elif defined(__GNUC__)
#define URLCHECK_INLINE static __inline__
#else
#define URLCHECK_INLINE static
#endif

URLCHECK_INLINE urlcheck_base urlcheck_prepare(const uint8_t *base, size_t length, uint32_t profile) {
    urlcheck_base answer;
    urlcheck_prepare_to(&answer, base, length, profile);
    return answer;
}

URLCHECK_INLINE urlcheck_answer urlcheck_check(const uint8_t *text, size_t length, uint32_t profile,
                                               const urlcheck_base *base) {
    urlcheck_answer answer;
    urlcheck_check_to(&answer, text, length, profile, base);
    return answer;
}

URLCHECK_INLINE urlcheck_fault_count urlcheck_faults(const uint8_t *text, size_t length, uint32_t profile,
                                                     const urlcheck_base *base, urlcheck_fault *out, size_t room) {
    urlcheck_fault_count answer;
    urlcheck_faults_to(&answer, text, length, profile, base, out, room);
    return answer;
}

URLCHECK_INLINE urlcheck_record urlcheck_resolve(const uint8_t *text, size_t length, uint32_t profile,
                                                 const uint8_t *base, size_t base_length, uint8_t *out, size_t room) {
    urlcheck_record answer;
    urlcheck_resolve_to(&answer, text, length, profile, base, base_length, out, room);
    return answer;
}

URLCHECK_INLINE urlcheck_mended urlcheck_mend(const uint8_t *text, size_t length, uint32_t profile, const uint8_t *base,
                                              size_t base_length, uint8_t *out, size_t room) {
    urlcheck_mended answer;
    urlcheck_mend_to(&answer, text, length, profile, base, base_length, out, room);
    return answer;
}

URLCHECK_INLINE urlcheck_batch urlcheck_check_many(const uint8_t *texts, size_t length, const uint64_t *offsets,
                                                   size_t count, uint32_t profile, const urlcheck_base *base,
                                                   uint8_t *verdicts, uint8_t *rules, uint64_t *places) {
    urlcheck_batch answer;
    urlcheck_check_many_to(&answer, texts, length, offsets, count, profile, base, verdicts, rules, places);
    return answer;
}

URLCHECK_INLINE urlcheck_batch urlcheck_resolve_many(const uint8_t *texts, size_t length, const uint64_t *offsets,
                                                     size_t count, uint32_t profile, const uint8_t *base,
                                                     size_t base_length, uint8_t *verdicts, uint8_t *rules,
                                                     uint64_t *places, uint64_t *ends, uint8_t *out, size_t room) {
    urlcheck_batch answer;
    urlcheck_resolve_many_to(&answer, texts, length, offsets, count, profile, base, base_length, verdicts, rules, places,
                             ends, out, room);
    return answer;
}

URLCHECK_INLINE urlcheck_line urlcheck_next_refused(const uint8_t *lines, size_t length, size_t from,
                                                    uint32_t profile) {
    urlcheck_line answer;
    urlcheck_next_refused_to(&answer, lines, length, from, profile);
    return answer;
}

URLCHECK_INLINE urlcheck_written urlcheck_report_begin(uint32_t format, uint32_t unit, uint8_t *out, size_t room) {
    urlcheck_written answer;
    urlcheck_report_begin_to(&answer, format, unit, out, room);
    return answer;
}

URLCHECK_INLINE urlcheck_written urlcheck_report_file_begin(uint32_t format, const uint8_t *file, size_t length,
                                                            uint8_t *out, size_t room) {
    urlcheck_written answer;
    urlcheck_report_file_begin_to(&answer, format, file, length, out, room);
    return answer;
}

URLCHECK_INLINE urlcheck_written urlcheck_diagnostic(uint32_t format, uint32_t is_coloured, uint32_t is_first,
                                                     const urlcheck_reported *reported, uint8_t *out, size_t room) {
    urlcheck_written answer;
    urlcheck_diagnostic_to(&answer, format, is_coloured, is_first, reported, out, room);
    return answer;
}

URLCHECK_INLINE urlcheck_written urlcheck_report_file_end(uint32_t format, uint8_t *out, size_t room) {
    urlcheck_written answer;
    urlcheck_report_file_end_to(&answer, format, out, room);
    return answer;
}

URLCHECK_INLINE urlcheck_written urlcheck_report_end(uint32_t format, uint32_t completion, uint8_t *out, size_t room) {
    urlcheck_written answer;
    urlcheck_report_end_to(&answer, format, completion, out, room);
    return answer;
}

URLCHECK_INLINE urlcheck_written urlcheck_message(const uint8_t *text, size_t length, uint32_t profile,
                                                  const urlcheck_base *base, uint32_t wording, uint32_t rule,
                                                  size_t place, uint8_t *out, size_t room) {
    urlcheck_written answer;
    urlcheck_message_to(&answer, text, length, profile, base, wording, rule, place, out, room);
    return answer;
}

URLCHECK_INLINE urlcheck_counted urlcheck_column(const uint8_t *text, size_t length, uint32_t unit, uint64_t start,
                                                 size_t place) {
    urlcheck_counted answer;
    urlcheck_column_to(&answer, text, length, unit, start, place);
    return answer;
}

#undef URLCHECK_INLINE
#endif

#ifdef __cplusplus
}
#endif

/* The structs are laid out as in the library, whose own build asserts the same sizes. */
#if defined(__cplusplus)
#if __cplusplus >= 201103L
#define URLCHECK_HOLDS(fact) static_assert(fact, "the library lays out its structs in another way")
#endif
#elif defined(__STDC_VERSION__) && __STDC_VERSION__ >= 201112L
#define URLCHECK_HOLDS(fact) _Static_assert(fact, "the library lays out its structs in another way")
#endif
#ifdef URLCHECK_HOLDS
URLCHECK_HOLDS(sizeof(urlcheck_finding) == 24 && offsetof(urlcheck_finding, verdict) == 0);
URLCHECK_HOLDS(offsetof(urlcheck_finding, rule) == 4 && offsetof(urlcheck_finding, place) == 8);
URLCHECK_HOLDS(offsetof(urlcheck_finding, byte_place) == 16);
URLCHECK_HOLDS(sizeof(urlcheck_base) == 40 && offsetof(urlcheck_base, found) == 0);
URLCHECK_HOLDS(offsetof(urlcheck_base, profile) == 24 && offsetof(urlcheck_base, scheme) == 28);
URLCHECK_HOLDS(offsetof(urlcheck_base, opaque_path) == 32 && offsetof(urlcheck_base, empty_host) == 36);
URLCHECK_HOLDS(sizeof(urlcheck_span) == 24 && offsetof(urlcheck_span, start) == 0);
URLCHECK_HOLDS(offsetof(urlcheck_span, length) == 8 && offsetof(urlcheck_span, present) == 16);
URLCHECK_HOLDS(sizeof(urlcheck_bool) == 1);
URLCHECK_HOLDS(sizeof(urlcheck_spans) == 144 && offsetof(urlcheck_spans, scheme) == 0);
URLCHECK_HOLDS(offsetof(urlcheck_spans, host) == 24 && offsetof(urlcheck_spans, port) == 48);
URLCHECK_HOLDS(offsetof(urlcheck_spans, path) == 72 && offsetof(urlcheck_spans, query) == 96);
URLCHECK_HOLDS(offsetof(urlcheck_spans, fragment) == 120);
URLCHECK_HOLDS(sizeof(urlcheck_answer) == 168 && offsetof(urlcheck_answer, found) == 0);
URLCHECK_HOLDS(offsetof(urlcheck_answer, parts) == 24);
URLCHECK_HOLDS(sizeof(urlcheck_record) == 184 && offsetof(urlcheck_record, found) == 0);
URLCHECK_HOLDS(offsetof(urlcheck_record, length) == 24 && offsetof(urlcheck_record, parts) == 32);
URLCHECK_HOLDS(offsetof(urlcheck_record, host) == 176 && offsetof(urlcheck_record, opaque_path) == 180);
URLCHECK_HOLDS(sizeof(urlcheck_mended) == 40 && offsetof(urlcheck_mended, found) == 0);
URLCHECK_HOLDS(offsetof(urlcheck_mended, kind) == 24 && offsetof(urlcheck_mended, offered) == 28);
URLCHECK_HOLDS(offsetof(urlcheck_mended, length) == 32);
URLCHECK_HOLDS(sizeof(urlcheck_fault) == 24 && offsetof(urlcheck_fault, rule) == 0);
URLCHECK_HOLDS(offsetof(urlcheck_fault, place) == 8 && offsetof(urlcheck_fault, byte_place) == 16);
URLCHECK_HOLDS(sizeof(urlcheck_fault_count) == 32 && offsetof(urlcheck_fault_count, found) == 0);
URLCHECK_HOLDS(offsetof(urlcheck_fault_count, count) == 24);
URLCHECK_HOLDS(sizeof(urlcheck_batch) == 32 && offsetof(urlcheck_batch, outcome) == 0);
URLCHECK_HOLDS(offsetof(urlcheck_batch, row) == 8 && offsetof(urlcheck_batch, valid) == 16);
URLCHECK_HOLDS(offsetof(urlcheck_batch, length) == 24);
URLCHECK_HOLDS(sizeof(urlcheck_line) == 56 && offsetof(urlcheck_line, found) == 0);
URLCHECK_HOLDS(offsetof(urlcheck_line, start) == 24 && offsetof(urlcheck_line, length) == 32);
URLCHECK_HOLDS(offsetof(urlcheck_line, next) == 40 && offsetof(urlcheck_line, passed) == 48);
URLCHECK_HOLDS(sizeof(urlcheck_written) == 32 && offsetof(urlcheck_written, found) == 0);
URLCHECK_HOLDS(offsetof(urlcheck_written, length) == 24);
URLCHECK_HOLDS(sizeof(urlcheck_counted) == 32 && offsetof(urlcheck_counted, found) == 0);
URLCHECK_HOLDS(offsetof(urlcheck_counted, column) == 24);
URLCHECK_HOLDS(sizeof(urlcheck_region) == 32 && offsetof(urlcheck_region, line) == 0);
URLCHECK_HOLDS(offsetof(urlcheck_region, column) == 8 && offsetof(urlcheck_region, end_line) == 16);
URLCHECK_HOLDS(offsetof(urlcheck_region, end_column) == 24);
URLCHECK_HOLDS(sizeof(urlcheck_reported_numbers) == 96 && offsetof(urlcheck_reported_numbers, region) == 0);
URLCHECK_HOLDS(offsetof(urlcheck_reported_numbers, fix_region) == 32);
URLCHECK_HOLDS(offsetof(urlcheck_reported_numbers, place) == 64 && offsetof(urlcheck_reported_numbers, repeat) == 72);
URLCHECK_HOLDS(offsetof(urlcheck_reported_numbers, kind) == 80 && offsetof(urlcheck_reported_numbers, offered) == 84);
URLCHECK_HOLDS(offsetof(urlcheck_reported_numbers, named) == 88);
#undef URLCHECK_HOLDS
#endif
#endif
