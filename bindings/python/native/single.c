/* The calls over one text, and the objects of their answers. */
#include "native.h"

#include <stdlib.h>

/* Texts from this length on are checked without the interpreter's lock. */
enum { LONG = 16384 };

/* What most answers fit in: so many bytes, so many violations. */
enum { MOST = 512, MOST_FAULTS = 16 };

/* Gives up the interpreter's lock for a long text, so that other threads run meanwhile. */
static PyThreadState *unlocked(const request *request) { return request->length < LONG ? NULL : PyEval_SaveThread(); }

/* Takes the lock again, if it was given up. */
static void locked(PyThreadState *thread) {
    if (thread) PyEval_RestoreThread(thread);
}

/*
 * An object of a class with the fields of a dictionary, which is taken over. (A frozen class takes none by its own
 * `__setattr__`, and a call of it costs more than the check.) Its fields are texts, numbers and members of an
 * enumeration, so that it is in no cycle, and the collector needn't look at it: to look at a million answers takes longer
 * than to check.
 */
static PyObject *made(PyObject *type, state *state, PyObject *fields) {
    newfunc make = (newfunc)PyType_GetSlot((PyTypeObject *)type, Py_tp_new);
    PyObject *object = fields ? make((PyTypeObject *)type, state->no_arguments, NULL) : NULL;

    if (object && PyObject_GenericSetAttr(object, state->dict, fields) < 0) {
        Py_DECREF(object);
        object = NULL;
    }
    if (object && PyType_GetFlags((PyTypeObject *)type) & Py_TPFLAGS_HAVE_GC) {
        PyObject_GC_UnTrack(object);
        PyObject_GC_UnTrack(fields);
    }
    Py_XDECREF(fields);
    return object;
}

/* Puts a value, which is taken over, into a dictionary: false if there is none. */
static int put(PyObject *fields, PyObject *key, PyObject *value) {
    int is_put = value && PyDict_SetItem(fields, key, value) == 0;

    Py_XDECREF(value);
    return is_put;
}

/* The object of a class with the fields `rule` and `place`. */
static PyObject *at_place(state *state, PyObject *type, uint32_t rule, size_t place) {
    PyObject *fields = PyDict_New();

    if (!fields || PyDict_SetItem(fields, state->rule, state->rules[rule % RULE_COUNT]) < 0
        || !put(fields, state->place, PyLong_FromSize_t(place))) {
        Py_XDECREF(fields);
        return NULL;
    }
    return made(type, state, fields);
}

/* The refusal of a text. */
static PyObject *refused(state *state, urlcheck_finding found) {
    return at_place(state, state->refused, found.rule, found.place);
}

/* A part as a slice of the text, or None. The path is a text if it is absent, too. */
static PyObject *part_of(const request *request, state *state, urlcheck_span span, int is_ascii, int number) {
    if (!span.present && number != 3) {
        Py_INCREF(state->none);
        return state->none;
    }
    if (is_ascii)
        return PyUnicode_Substring(request->text, (Py_ssize_t)span.start, (Py_ssize_t)(span.start + span.length));
    return text_of(request->data + span.start, span.length);
}

/* A valid text with its parts. From ASCII the text itself is cut, since its places are places of bytes. */
static PyObject *valid(state *state, const request *request, const urlcheck_spans *parts) {
    const urlcheck_span spans[PART_COUNT] = {parts->scheme, parts->host,  parts->port,
                                             parts->path,   parts->query, parts->fragment};
    int is_ascii = (size_t)PyUnicode_GetLength(request->text) == request->length;
    PyObject *fields = PyDict_New();

    for (int number = 0; fields && number < PART_COUNT; number++) {
        if (!put(fields, state->parts[number], part_of(request, state, spans[number], is_ascii, number))) {
            Py_DECREF(fields);
            return NULL;
        }
    }
    return made(state->valid, state, fields);
}

/* What is found of a text, as an object, or whether it is valid. */
static PyObject *check_answer(PyObject *module, PyObject *args, PyObject *named, const char *format, int is_whole) {
    state *state = PyModule_GetState(module);
    PyObject *object = NULL;
    request request = {0};

    if (read_arguments(state, args, named, format, &request)) {
        PyThreadState *thread = unlocked(&request);
        urlcheck_answer answer = urlcheck_check(request.data, request.length, request.profile, request.base);
        locked(thread);
        if (is_checked(state, answer.found)) {
            int is_valid = answer.found.verdict == URLCHECK_VALID;
            if (!is_whole) object = PyBool_FromLong(is_valid);
            else object = is_valid ? valid(state, &request, &answer.parts) : refused(state, answer.found);
        }
    }
    drop_request(&request);
    return object;
}

PyObject *native_check(PyObject *module, PyObject *args, PyObject *named) {
    return check_answer(module, args, named, "O|OO:check", 1);
}

PyObject *native_is_valid(PyObject *module, PyObject *args, PyObject *named) {
    return check_answer(module, args, named, "O|OO:is_valid", 0);
}

/* Writes a text into `most`, or if it is longer into memory of its own, which is to be freed: null if there is none. */
static uint8_t *write_text(const request *request, int mends, uint8_t *most, urlcheck_mended *answer) {
    PyThreadState *thread = unlocked(request);
    uint8_t *out = most;

    *answer = make_one(request->data, request->length, request, mends, most, MOST);
    if (answer->length > MOST) {
        out = malloc(answer->length);
        if (out) *answer = make_one(request->data, request->length, request, mends, out, answer->length);
    }
    locked(thread);
    if (!out) PyErr_SetString(PyExc_MemoryError, "urlcheck");
    return out;
}

/* The text of a URL record, or a mended text and None for a valid one; a refusal if there is none. */
static PyObject *written_answer(state *state, const uint8_t *out, const urlcheck_mended *answer, int mends) {
    PyObject *fields;

    if (!is_checked(state, answer->found)) return NULL;
    if (answer->found.verdict == URLCHECK_REFUSED) return refused(state, answer->found);
    if (!mends) return text_of(out, answer->length);
    if (answer->found.verdict == URLCHECK_VALID) {
        Py_INCREF(state->none);
        return state->none;
    }
    fields = PyDict_New();
    if (!fields || !put(fields, state->text, text_of(out, answer->length))
        || PyDict_SetItem(fields, state->kind, state->kinds[answer->kind % KIND_COUNT]) < 0
        || !put(fields, state->is_offered, PyBool_FromLong((long)answer->offered))) {
        Py_XDECREF(fields);
        return NULL;
    }
    return made(state->mended, state, fields);
}

/* What resolve and mend share: they read the arguments, write a text, and answer it. */
static PyObject *write_answer(PyObject *module, PyObject *args, PyObject *named, const char *format, int mends) {
    state *state = PyModule_GetState(module);
    PyObject *object = NULL;
    uint8_t most[MOST], *out;
    urlcheck_mended answer;
    request request = {0};

    if (read_arguments(state, args, named, format, &request)) {
        out = write_text(&request, mends, most, &answer);
        if (out) object = written_answer(state, out, &answer, mends);
        if (out != most) free(out);
    }
    drop_request(&request);
    return object;
}

PyObject *native_resolve(PyObject *module, PyObject *args, PyObject *named) {
    return write_answer(module, args, named, "O|OO:resolve", 0);
}

PyObject *native_mend(PyObject *module, PyObject *args, PyObject *named) {
    return write_answer(module, args, named, "O|OO:mend", 1);
}

/* Has the library list the violations, as many as there is room for. */
static urlcheck_fault_count list_once(const request *request, urlcheck_fault *out, size_t room) {
    PyThreadState *thread = unlocked(request);
    urlcheck_fault_count answer =
        urlcheck_faults(request->data, request->length, request->profile, request->base, out, room);

    locked(thread);
    return answer;
}

/* The violations as a list of objects. */
static PyObject *violation_list(state *state, const urlcheck_fault *faults, size_t count) {
    PyObject *list = PyList_New((Py_ssize_t)count);

    for (size_t at = 0; list && at < count; at++) {
        PyObject *violation = at_place(state, state->violation, faults[at].rule, faults[at].place);
        if (!violation || PyList_SetItem(list, (Py_ssize_t)at, violation) < 0) {
            Py_DECREF(list);
            return NULL;
        }
    }
    return list;
}

PyObject *native_violations(PyObject *module, PyObject *args, PyObject *named) {
    state *state = PyModule_GetState(module);
    PyObject *list = NULL;
    urlcheck_fault most[MOST_FAULTS], *out = most;
    urlcheck_fault_count answer;
    request request = {0};

    if (read_arguments(state, args, named, "O|OO:violations", &request)) {
        answer = list_once(&request, most, MOST_FAULTS);
        if (answer.count > MOST_FAULTS && answer.count <= SIZE_MAX / sizeof *out)
            out = malloc(answer.count * sizeof *out);
        if (answer.count > MOST_FAULTS && out) answer = list_once(&request, out, answer.count);
        if (!out) PyErr_SetString(PyExc_MemoryError, "urlcheck");
        if (out && is_checked(state, answer.found)) list = violation_list(state, out, answer.count);
        if (out != most) free(out);
    }
    drop_request(&request);
    return list;
}
