/* Reports and fixed texts: each call writes a text of the library's, or tells a number that it has. */
#include "native.h"

#include <stdlib.h>

/* A text up to SHORT bytes is written without memory of its own; of a text from LONG bytes on without the interpreter's
 * lock. */
enum { SHORT = 4096, LONG = 16384 };

/* The calls of the library that write. */
typedef enum call { REPORT_BEGIN, FILE_BEGIN, DIAGNOSTIC, FILE_END, REPORT_END, MESSAGE } call;

/* What is to be written: a call with all but where it writes. (PyArg_ParseTuple writes a text as a pointer to char and a
 * Py_ssize_t, which are laid out as its pointer and its length here.) */
typedef struct writing {
    call call;
    uint32_t format, unit, completion, is_coloured, is_first, profile, wording, rule;
    uint64_t place;
    const uint8_t *text;
    size_t length;
    const urlcheck_base *base;
    urlcheck_reported reported;
} writing;

/* Makes the call, with what it takes of a writing. */
static urlcheck_written called(const writing *it, uint8_t *out, size_t room) {
    switch (it->call) {
        case REPORT_BEGIN: return urlcheck_report_begin(it->format, it->unit, out, room);
        case FILE_BEGIN: return urlcheck_report_file_begin(it->format, it->text, it->length, out, room);
        case DIAGNOSTIC:
            return urlcheck_diagnostic(it->format, it->is_coloured, it->is_first, &it->reported, out, room);
        case FILE_END: return urlcheck_report_file_end(it->format, out, room);
        case REPORT_END: return urlcheck_report_end(it->format, it->completion, out, room);
        default:
            return urlcheck_message(it->text, it->length, it->profile, it->base, it->wording, it->rule,
                                    (size_t)it->place, out, room);
    }
}

/* False, with an error, if a call gave nothing. */
static int is_given(urlcheck_finding found) {
    static const char *const reasons[] = {
        [URLCHECK_NO_PROFILE] = "no profile has this number",
        [URLCHECK_NO_FORMAT] = "no format has this number",
        [URLCHECK_NO_UNIT] = "the format has no word for this unit",
        [URLCHECK_NO_RULE] = "no rule has this number",
        [URLCHECK_NO_KIND] = "no kind of mended text has this number",
        [URLCHECK_NO_COMPLETION] = "a report has no such end",
        [URLCHECK_NO_PLACE] = "the place is after the end of the text",
        [URLCHECK_NO_COLUMN] = "a line or a column isn't from 1 to 4294967295",
        [URLCHECK_NO_WORDING] = "no wording has this number",
    };
    const char *reason = NULL;

    if (found.verdict == URLCHECK_DONE) return 1;
    if (found.verdict == URLCHECK_MEMORY) return PyErr_NoMemory() != NULL;
    if (found.verdict < sizeof reasons / sizeof *reasons) reason = reasons[found.verdict];
    PyErr_SetString(PyExc_ValueError, reason ? reason : "a text isn't UTF-8");
    return 0;
}

/* Writes it once, if the text is long without the interpreter's lock. */
static urlcheck_written written_once(const writing *writing, uint8_t *out, size_t room) {
    PyThreadState *thread = writing->length < LONG ? NULL : PyEval_SaveThread();
    urlcheck_written written = called(writing, out, room);

    if (thread) PyEval_RestoreThread(thread);
    return written;
}

/* The text that a call writes, and what else it answers. */
static PyObject *text_and_finding(const writing *writing, urlcheck_finding *found) {
    uint8_t most[SHORT], *out = most;
    urlcheck_written written = written_once(writing, most, SHORT);
    PyObject *text = NULL;

    if (written.length > SHORT) {
        out = malloc(written.length);
        if (!out) return PyErr_NoMemory();
        written = written_once(writing, out, written.length);
    }
    if (is_given(written.found)) text = text_of(out, written.length);
    if (out != most) free(out);
    *found = written.found;
    return text;
}

/* The text alone. */
static PyObject *written_text(const writing *writing) {
    urlcheck_finding found;

    return text_and_finding(writing, &found);
}

/* A number from 0. In place of one that doesn't fit stands the greatest, which isn't a place, line or column of a text. */
static int read_number(PyObject *given, void *number) {
    unsigned long long read = PyLong_AsUnsignedLongLong(given);

    if (read == UINT64_MAX && PyErr_Occurred()) {
        if (!PyErr_ExceptionMatches(PyExc_OverflowError)) return 0;
        PyErr_Clear();
    }
    *(uint64_t *)number = read;
    return 1;
}

/* report_begin(format, unit) */
PyObject *native_report_begin(PyObject *module, PyObject *args) {
    writing writing = {.call = REPORT_BEGIN};

    (void)module;
    return PyArg_ParseTuple(args, "II:report_begin", &writing.format, &writing.unit) ? written_text(&writing) : NULL;
}

/* report_end(format, completion) */
PyObject *native_report_end(PyObject *module, PyObject *args) {
    writing writing = {.call = REPORT_END};

    (void)module;
    return PyArg_ParseTuple(args, "II:report_end", &writing.format, &writing.completion) ? written_text(&writing) : NULL;
}

/* file_begin(format, file) */
PyObject *native_file_begin(PyObject *module, PyObject *args) {
    writing writing = {.call = FILE_BEGIN};

    (void)module;
    return PyArg_ParseTuple(args, "Is#:file_begin", &writing.format, &writing.text, &writing.length)
               ? written_text(&writing)
               : NULL;
}

/* file_end(format) */
PyObject *native_file_end(PyObject *module, PyObject *args) {
    writing writing = {.call = FILE_END};

    (void)module;
    return PyArg_ParseTuple(args, "I:file_end", &writing.format) ? written_text(&writing) : NULL;
}

/* message(text, base, profile, wording, rule, place): the sentence, and the place of the code point that it names. */
PyObject *native_message(PyObject *module, PyObject *args) {
    state *state = PyModule_GetState(module);
    writing writing = {.call = MESSAGE};
    PyObject *arguments[3], *text = NULL;
    request request = {0};
    urlcheck_finding found = {0};

    if (!PyArg_ParseTuple(args, "OOOIIO&:message", &arguments[0], &arguments[1], &arguments[2], &writing.wording,
                          &writing.rule, read_number, &writing.place))
        return NULL;
    if (read_request(state, arguments, &request) && (!request.base || is_checked(state, request.base->found))) {
        writing.text = request.data, writing.length = request.length;
        writing.profile = request.profile, writing.base = request.base;
        text = text_and_finding(&writing, &found);
    }
    drop_request(&request);
    return text ? Py_BuildValue("Nn", text, (Py_ssize_t)found.place) : NULL;
}

/*
 * diagnostic(format, is_coloured, is_first, (file, rule, uri, message, within, text, fix), (line, column, end_line,
 * end_column, fix_line, fix_column, fix_end_line, fix_end_column, place, named, repeat, kind, offered)), as
 * urlcheck_reported has them.
 */
PyObject *native_diagnostic(PyObject *module, PyObject *args) {
    writing writing = {.call = DIAGNOSTIC};
    urlcheck_reported *it = &writing.reported;
    urlcheck_region *at = &it->numbers.region, *fix = &it->numbers.fix_region;
    uint64_t named;

    (void)module;
    if (!PyArg_ParseTuple(args, "Ipp(s#s#s#s#s#s#s#)(O&O&O&O&O&O&O&O&O&O&O&II):diagnostic", &writing.format,
                          &writing.is_coloured, &writing.is_first, &it->file, &it->file_length, &it->rule,
                          &it->rule_length, &it->uri, &it->uri_length, &it->message, &it->message_length, &it->within,
                          &it->within_length, &it->text, &it->text_length, &it->fix, &it->fix_length, read_number,
                          &at->line, read_number, &at->column, read_number, &at->end_line, read_number,
                          &at->end_column, read_number, &fix->line, read_number, &fix->column, read_number,
                          &fix->end_line, read_number, &fix->end_column, read_number, &writing.place, read_number,
                          &named, read_number, &it->numbers.repeat, &it->numbers.kind, &it->numbers.offered))
        return NULL;
    it->numbers.place = (size_t)writing.place;
    it->numbers.named = (size_t)named;
    writing.length = it->text_length;
    return written_text(&writing);
}

/* column(text, unit, start, place) */
PyObject *native_column(PyObject *module, PyObject *args) {
    const uint8_t *text;
    size_t length;
    uint64_t start, place;
    uint32_t unit;
    urlcheck_counted counted;

    (void)module;
    if (!PyArg_ParseTuple(args, "s#IO&O&:column", &text, &length, &unit, read_number, &start, read_number, &place))
        return NULL;
    counted = urlcheck_column(text, length, unit, start, (size_t)place);
    return is_given(counted.found) ? PyLong_FromUnsignedLongLong(counted.column) : NULL;
}

/* text(what, number): a fixed text, which is empty if there is none. */
PyObject *native_text(PyObject *module, PyObject *args) {
    uint8_t out[512];
    uint32_t what, number;
    size_t length;

    (void)module;
    if (!PyArg_ParseTuple(args, "II:text", &what, &number)) return NULL;
    length = urlcheck_text(what, number, out, sizeof out);
    if (length > sizeof out) return PyErr_Format(PyExc_SystemError, "a text has %zu bytes", length);
    return text_of(out, length);
}

/* shows_mended(format) */
PyObject *native_shows_mended(PyObject *module, PyObject *args) {
    uint32_t format;

    (void)module;
    return PyArg_ParseTuple(args, "I:shows_mended", &format) ? PyBool_FromLong(urlcheck_shows_mended(format)) : NULL;
}

/* takes_unit(format, unit) */
PyObject *native_takes_unit(PyObject *module, PyObject *args) {
    uint32_t format, unit;

    (void)module;
    if (!PyArg_ParseTuple(args, "II:takes_unit", &format, &unit)) return NULL;
    return PyBool_FromLong(urlcheck_takes_unit(format, unit));
}

/* example_place(rule) */
PyObject *native_example_place(PyObject *module, PyObject *args) {
    uint32_t rule;

    (void)module;
    return PyArg_ParseTuple(args, "I:example_place", &rule) ? PyLong_FromSize_t(urlcheck_example_place(rule)) : NULL;
}
