/* The arguments of a call: a text, a base and a profile, and errors that say why something isn't one of them. */
#include "native.h"

#include <string.h>

const uint8_t *bytes_of(PyObject *bytes, size_t *length) {
    *length = (size_t)PyBytes_Size(bytes);
    return (const uint8_t *)PyBytes_AsString(bytes);
}

PyObject *text_of(const uint8_t *bytes, size_t length) {
    return PyUnicode_DecodeUTF8((const char *)bytes, (Py_ssize_t)length, "strict");
}

PyObject *refuse_text(PyObject *given, const char *what) {
    PyObject *name = PyObject_GetAttrString((PyObject *)Py_TYPE(given), "__name__");

    if (name) PyErr_Format(PyExc_TypeError, "%s, not %U", what, name);
    Py_XDECREF(name);
    return NULL;
}

/* The number of the profile, or -1 and an error. */
static int profile_number(state *state, PyObject *given) {
    PyObject *profile;
    int found = -1;

    for (int number = 0; number < PROFILE_COUNT; number++)
        if (given == state->profiles[number]) return number;
    profile = PyObject_CallFunctionObjArgs(state->profile_of, given, NULL);
    for (int number = 0; profile && number < PROFILE_COUNT; number++)
        if (profile == state->profiles[number]) found = number;
    Py_XDECREF(profile);
    return found;
}

/* Reads what a urlcheck.Base holds, whose profile has to be the one that was said, if one was. */
static int read_prepared(state *state, PyObject *base, int is_said, request *request) {
    PyObject *held = PyObject_GetAttr(base, state->held), *name;
    size_t length = 0;

    if (held && PyBytes_Check(held) && PyBytes_Size(held) == (Py_ssize_t)sizeof request->prepared)
        memcpy(&request->prepared, bytes_of(held, &length), sizeof request->prepared);
    Py_XDECREF(held);
    if (!held) return 0;
    if (!length) {
        PyErr_SetString(PyExc_TypeError, "a base has lost what was checked of it");
        return 0;
    }
    if (is_said && request->profile != request->prepared.profile) {
        name = PyObject_GetAttrString(state->profiles[request->prepared.profile % PROFILE_COUNT], "name");
        if (name) PyErr_Format(PyExc_ValueError, "the base was checked by another profile: %U", name);
        Py_XDECREF(name);
        return 0;
    }
    request->profile = request->prepared.profile;
    request->base = &request->prepared;
    request->base_bytes = PyObject_GetAttr(base, state->data);
    if (request->base_bytes) request->base_data = bytes_of(request->base_bytes, &request->base_length);
    return request->base_data != NULL;
}

int read_setting(state *state, PyObject *base, PyObject *profile, request *request) {
    int number = URLCHECK_STANDARD, is_base, is_said = profile && profile != state->none;

    if (base && base != state->none && !PyUnicode_Check(base)) {
        is_base = PyObject_IsInstance(base, state->base);
        if (is_base < 0) return 0;
        if (!is_base) return refuse_text(base, "a base is a str, a urlcheck.Base or None") != NULL;
    }
    if (is_said) number = profile_number(state, profile);
    if (number < 0) return 0;
    request->profile = (uint32_t)number;
    if (!base || base == state->none) return 1;
    if (!PyUnicode_Check(base)) return read_prepared(state, base, is_said, request);
    request->base_bytes = PyUnicode_AsUTF8String(base);
    if (!request->base_bytes) return 0;
    request->base_data = bytes_of(request->base_bytes, &request->base_length);
    request->prepared = urlcheck_prepare(request->base_data, request->base_length, request->profile);
    request->base = &request->prepared;
    return 1;
}

int read_valid_setting(state *state, PyObject *base, PyObject *profile, request *request) {
    return read_setting(state, base, profile, request)
           && (!request->base || is_checked(state, request->prepared.found));
}

int read_request(state *state, PyObject *arguments[3], request *request) {
    if (!PyUnicode_Check(arguments[0])) return refuse_text(arguments[0], "a text is a str") != NULL;
    if (!read_setting(state, arguments[1], arguments[2], request)) return 0;
    request->text = arguments[0];
    request->bytes = PyUnicode_AsUTF8String(arguments[0]);
    if (!request->bytes) return 0;
    request->data = bytes_of(request->bytes, &request->length);
    return 1;
}

/* (without names, the arguments are taken as they are, which takes less time than parsing them) */
int read_arguments(state *state, PyObject *args, PyObject *named, const char *format, request *request) {
    static char *names[] = {"text", "base", "profile", NULL};
    Py_ssize_t count = PyTuple_Size(args);
    PyObject *given[3] = {NULL, NULL, NULL};

    if (named || count < 1 || count > 3) {
        if (!PyArg_ParseTupleAndKeywords(args, named, format, names, &given[0], &given[1], &given[2])) return 0;
    } else {
        for (Py_ssize_t at = 0; at < count; at++) given[at] = PyTuple_GetItem(args, at);
    }
    return read_request(state, given, request);
}

void drop_request(request *request) {
    Py_XDECREF(request->bytes);
    Py_XDECREF(request->base_bytes);
}

int is_checked(state *state, urlcheck_finding found) {
    PyObject *why;

    switch (found.verdict) {
        case URLCHECK_VALID:
        case URLCHECK_REFUSED:
        case URLCHECK_MENDED: return 1;
        case URLCHECK_BASE_REFUSED:
            why = Py_BuildValue("(On)", state->rules[found.rule % RULE_COUNT], (Py_ssize_t)found.place);
            if (why) PyErr_SetObject(state->base_refused, why);
            Py_XDECREF(why);
            return 0;
        case URLCHECK_MEMORY: PyErr_SetString(PyExc_MemoryError, "urlcheck"); return 0;
        default: PyErr_SetString(PyExc_ValueError, "no profile has this number"); return 0;
    }
}
