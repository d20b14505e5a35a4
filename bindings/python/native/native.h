/*
 * The extension module urlcheck._native, by the stable ABI of CPython 3.8 and later (PEP 384): one build for each of them.
 * The classes of its answers are the package's own, in Python, which hands them over when it is loaded.
 */
#ifndef URLCHECK_NATIVE_H
#define URLCHECK_NATIVE_H

#define PY_SSIZE_T_CLEAN
#define Py_LIMITED_API 0x03080000
#include <Python.h>

#include "urlcheck.h"

/*
 * How many there are of each, counted from 0; no rule and no kind has the number 0. The package hands over as many when
 * it is loaded (see native.use in __init__.py), and the module refuses another count.
 */
enum { PART_COUNT = 6, RULE_COUNT = 16, NO_UTF8_RULE = 15, KIND_COUNT = 4, PROFILE_COUNT = 3 };

/* What the module holds: objects of Python, and nothing else. */
typedef struct state {
    PyObject *valid, *refused, *mended, *violation; /* the classes of answers */
    PyObject *base, *base_refused;
    PyObject *profile_of;              /* a profile of what a caller gave, or an error that says why it isn't one */
    PyObject *profiles[PROFILE_COUNT]; /* by their numbers */
    PyObject *kinds[KIND_COUNT];       /* of mended texts, from 1 */
    PyObject *kind_names[KIND_COUNT];
    PyObject *rules[RULE_COUNT]; /* their names, from 1, and at last the name for bytes that aren't UTF-8 */
    PyObject *parts[PART_COUNT]; /* the names of the parts, in the order of urlcheck_spans */
    PyObject *rule, *place, *text, *kind, *is_offered, *dict, *held, *data, *none;
    PyObject *no_arguments;
} state;

/* What a call asks: a text's bytes and a base, each held as long as the request is. */
typedef struct request {
    PyObject *text;  /* the caller's */
    PyObject *bytes; /* its UTF-8 */
    const uint8_t *data;
    size_t length;
    PyObject *base_bytes; /* the UTF-8 of the base; if the text is checked by itself it and its data are null */
    const uint8_t *base_data;
    size_t base_length;
    urlcheck_base prepared;
    const urlcheck_base *base; /* `prepared`, or null if the text is checked by itself */
    uint32_t profile;
} request;

/* Reads a base and a profile, either of which may be null, into a request of zeros: false and an error if it can't. */
int read_setting(state *state, PyObject *base, PyObject *profile, request *request);

/* Reads a base and a profile as read_setting does, and checks the base: false and an error if it isn't valid. */
int read_valid_setting(state *state, PyObject *base, PyObject *profile, request *request);

/* Reads a text, a base and a profile, of which the last two may be null, into a request of zeros: false and an error if
 * one of them isn't right. */
int read_request(state *state, PyObject *arguments[3], request *request);

/* Reads these as the arguments of a call, which may be named. */
int read_arguments(state *state, PyObject *args, PyObject *named, const char *format, request *request);

void drop_request(request *request);

/* False, with an error, if a text wasn't checked. */
int is_checked(state *state, urlcheck_finding found);

/* The start and the length of the bytes of an object of type `bytes`. */
const uint8_t *bytes_of(PyObject *bytes, size_t *length);

/* A text of these bytes, which are UTF-8. */
PyObject *text_of(const uint8_t *bytes, size_t length);

/* The error that says what isn't a text. */
PyObject *refuse_text(PyObject *given, const char *what);

/* The calls over one text: functions of the module. */
PyObject *native_check(PyObject *module, PyObject *args, PyObject *named);
PyObject *native_is_valid(PyObject *module, PyObject *args, PyObject *named);
PyObject *native_resolve(PyObject *module, PyObject *args, PyObject *named);
PyObject *native_mend(PyObject *module, PyObject *args, PyObject *named);
PyObject *native_violations(PyObject *module, PyObject *args, PyObject *named);

/*
 * The calls over many texts, functions of the module. Those of texts take a list and a tuple of what stands for a missing
 * text, from Arrow the two capsules of an array.
 */
PyObject *native_check_texts(PyObject *module, PyObject *args);
PyObject *native_write_texts(PyObject *module, PyObject *args);
PyObject *native_check_arrow(PyObject *module, PyObject *args);
PyObject *native_write_arrow(PyObject *module, PyObject *args);
PyObject *native_arrays_of(PyObject *module, PyObject *stream);
PyObject *native_layout(PyObject *module, PyObject *schema);
PyObject *native_export(PyObject *module, PyObject *args);
PyObject *native_bits(PyObject *module, PyObject *args);

/* The calls that write reports and fixed texts, functions of the module. */
PyObject *native_text(PyObject *module, PyObject *args);
PyObject *native_report_begin(PyObject *module, PyObject *args);
PyObject *native_file_begin(PyObject *module, PyObject *args);
PyObject *native_diagnostic(PyObject *module, PyObject *args);
PyObject *native_file_end(PyObject *module, PyObject *args);
PyObject *native_report_end(PyObject *module, PyObject *args);
PyObject *native_message(PyObject *module, PyObject *args);
PyObject *native_column(PyObject *module, PyObject *args);
PyObject *native_shows_mended(PyObject *module, PyObject *args);
PyObject *native_takes_unit(PyObject *module, PyObject *args);
PyObject *native_example_place(PyObject *module, PyObject *args);

/*
 * Texts that follow each other in one buffer: text i is data[offsets[i] .. offsets[i + 1]), and is missing if its bit
 * of `present`, from the bit `first` on, is 0.
 */
typedef struct texts {
    const uint8_t *data;
    const int64_t *offsets;
    size_t count;
    const uint8_t *present; /* null if none is missing */
    size_t first;
} texts;

/* What is found of each text. */
typedef struct findings {
    uint8_t *verdicts; /* one of urlcheck_outcome, or MISSING */
    uint8_t *rules;    /* 0 if none is violated; null if it isn't asked */
    int64_t *places;   /* -1 if none is wrong; null if it isn't asked */
} findings;

enum { MISSING = 255 };

/* What is made of each text: a text if it is neither refused nor missing, otherwise nothing. */
typedef struct makings {
    uint8_t *data; /* by malloc */
    size_t length, room;
    int64_t *offsets; /* one more than there are texts */
    uint8_t *marks;   /* 1 a text, and of a mended one 1 more than its kind; else 0 */
} makings;

/*
 * Checks texts, or makes others of them, by a request's base and profile. Nothing of Python is touched, so the lock needs
 * not be held. The count is given, or the number of the first text that wasn't checked and why: its verdict is
 * URLCHECK_NO_OFFSETS if its offsets are out of order.
 */
size_t check_all(const texts *texts, const request *request, findings out, urlcheck_finding *why);
size_t make_texts(const texts *texts, const request *request, int mends, makings *out, urlcheck_finding *why);

/* What is made of one text: it is mended, or the text of its URL is written, whose kind is 0. */
urlcheck_mended make_one(const uint8_t *text, size_t length, const request *request, int mends, uint8_t *out,
                         size_t room);

/* The error for the text at which one of these stopped. */
PyObject *refuse_texts(state *state, urlcheck_finding why, size_t at);

/* A new bytearray and its bytes, or null and an error. */
PyObject *new_bytes(size_t count, size_t width, void *bytes);

/* New bytearrays for what is found of this many texts, as a tuple: the verdicts, and if `is_all` rules and places. */
PyObject *new_findings(size_t count, int is_all, findings *out);

#endif
