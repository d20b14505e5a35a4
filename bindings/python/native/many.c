/* Many texts in a call: of a list, in pieces that are joined, checked without the interpreter's lock and answered. */
#include "native.h"

#include <stdlib.h>
#include <string.h>

/* A piece has at most so many texts, and ends after the text that makes it so long: it needs little memory, and the
 * lock is given up and taken again only once for it. */
enum { PIECE_TEXTS = 4096, PIECE_BYTES = 1 << 18 };

/* ---- over texts in one buffer, without Python */

/* Whether a text is missing, as its bit says. */
static int is_missing_at(const texts *texts, size_t at) {
    size_t bit = texts->first + at;

    return texts->present && !(texts->present[bit >> 3] >> (bit & 7) & 1);
}

/* Where the last text ends. */
static size_t end_of(const texts *texts) {
    int64_t end = texts->offsets[texts->count];

    return end < 0 ? 0 : (size_t)end;
}

size_t check_all(const texts *texts, const request *request, findings out, urlcheck_finding *why) {
    urlcheck_batch batch;

    if (texts->count == 0) return 0;
    batch = urlcheck_check_many(texts->data, end_of(texts), (const uint64_t *)texts->offsets, texts->count,
                                request->profile, request->base, out.verdicts, out.rules, (uint64_t *)out.places);
    why->verdict = batch.outcome;
    if (batch.outcome != URLCHECK_DONE) return batch.row;
    for (size_t at = 0; at < texts->count; at++) {
        int is_missing = is_missing_at(texts, at);
        if (is_missing) out.verdicts[at] = MISSING;
        if (out.rules && is_missing) out.rules[at] = 0;
        if (out.rules && out.verdicts[at] == URLCHECK_NO_UTF8) out.rules[at] = NO_UTF8_RULE;
        if (out.places && (is_missing || out.verdicts[at] == URLCHECK_VALID)) out.places[at] = -1;
        if (!is_missing && out.verdicts[at] > URLCHECK_NO_UTF8) {
            why->verdict = out.verdicts[at];
            return at;
        }
    }
    return texts->count;
}

urlcheck_mended make_one(const uint8_t *text, size_t length, const request *request, int mends, uint8_t *out,
                         size_t room) {
    const uint8_t *base = request->base_data;
    size_t base_length = request->base_length;
    urlcheck_mended made = {{0, 0, 0, 0}, 0, 0, 0};
    urlcheck_record record;

    if (mends) return urlcheck_mend(text, length, request->profile, base, base_length, out, room);
    record = urlcheck_resolve(text, length, request->profile, base, base_length, out, room);
    made.found = record.found, made.length = record.length;
    return made;
}

/* Room for this many bytes more: false if there is no memory. */
static int make_room(makings *out, size_t more) {
    size_t room = out->room;
    uint8_t *data;

    if (out->room - out->length >= more) return 1;
    if (more > SIZE_MAX / 4 || out->length > SIZE_MAX / 4) return 0;
    while (room - out->length < more) room = room ? room * 2 : 4096;
    data = realloc(out->data, room);
    if (!data) return 0;
    out->data = data, out->room = room;
    return 1;
}

/* Appends what is to be written in place of one text, if there is something: its verdict tells. A valid text stays. */
static urlcheck_finding append_mended(const uint8_t *text, size_t length, const request *request, makings *out,
                                      uint8_t *mark) {
    const urlcheck_finding no_memory = {URLCHECK_MEMORY, 0, 0, 0};
    urlcheck_mended made;

    if (!make_room(out, length + 64)) return no_memory;
    made = make_one(text, length, request, 1, out->data + out->length, out->room - out->length);
    if (made.length > out->room - out->length) {
        if (!make_room(out, made.length)) return no_memory;
        made = make_one(text, length, request, 1, out->data + out->length, out->room - out->length);
    }
    if (made.found.verdict == URLCHECK_VALID) {
        if (length) memcpy(out->data + out->length, text, length);
        made.length = length;
    }
    *mark = made.found.verdict == URLCHECK_VALID || made.found.verdict == URLCHECK_MENDED ? (uint8_t)(1 + made.kind) : 0;
    if (*mark) out->length += made.length;
    return made.found;
}

/* What is to be written in place of text i, if it isn't missing: its verdict tells. */
static urlcheck_finding mend_at(const texts *texts, size_t at, const request *request, makings *out) {
    const urlcheck_finding missing = {MISSING, 0, 0, 0}, no_offsets = {URLCHECK_NO_OFFSETS, 0, 0, 0};
    int64_t from = texts->offsets[at], to = texts->offsets[at + 1];

    out->marks[at] = 0;
    if (from < 0 || to < from || (size_t)to > end_of(texts)) return no_offsets;
    if (is_missing_at(texts, at)) return missing;
    return append_mended(texts->data ? texts->data + from : NULL, (size_t)(to - from), request, out, &out->marks[at]);
}

/* The URLs of the texts by one call, which reads the base once. Their verdicts come in place of the marks. */
static urlcheck_batch resolve_all(const texts *texts, const request *request, makings *out) {
    return urlcheck_resolve_many(texts->data, end_of(texts), (const uint64_t *)texts->offsets, texts->count,
                                 request->profile, request->base_data, request->base_length, out->marks, NULL, NULL,
                                 (uint64_t *)out->offsets, out->data, out->room);
}

/*
 * Writes the URLs of the texts, and in place of each mark whether the text has a URL. Returns how many texts there are,
 * or the place of the one that ends the call, and in `why` for what.
 */
static size_t resolve_texts(const texts *texts, const request *request, makings *out, urlcheck_finding *why) {
    urlcheck_batch batch;

    /* (what most URLs need; if they need more, the call is made once more) */
    make_room(out, end_of(texts) + texts->count * (request->base_length + 4));
    batch = resolve_all(texts, request, out);
    if (batch.length > out->room && make_room(out, batch.length)) batch = resolve_all(texts, request, out);
    why->verdict = batch.length > out->room ? URLCHECK_MEMORY : batch.outcome;
    if (why->verdict != URLCHECK_DONE) return batch.row;
    for (size_t at = 0; at < texts->count; at++) {
        why->verdict = out->marks[at];
        if (is_missing_at(texts, at)) why->verdict = MISSING;
        if (why->verdict > URLCHECK_NO_UTF8 && why->verdict != MISSING) return at;
        out->marks[at] = why->verdict == URLCHECK_VALID;
    }
    out->length = batch.length;
    return texts->count;
}

size_t make_texts(const texts *texts, const request *request, int mends, makings *out, urlcheck_finding *why) {
    out->length = 0;
    out->offsets[0] = 0;
    if (!mends && texts->count > 0) return resolve_texts(texts, request, out, why);
    for (size_t at = 0; at < texts->count; at++) {
        *why = mend_at(texts, at, request, out);
        if (why->verdict > URLCHECK_NO_UTF8 && why->verdict != URLCHECK_MENDED && why->verdict != MISSING) return at;
        out->offsets[at + 1] = (int64_t)out->length;
    }
    return texts->count;
}

/* ---- columns of Python, and errors */

PyObject *refuse_texts(state *state, urlcheck_finding why, size_t at) {
    if (why.verdict == URLCHECK_NO_OFFSETS)
        PyErr_Format(PyExc_ValueError, "the array is broken: the offsets of text %zu are out of order", at);
    else
        is_checked(state, why);
    return NULL;
}

PyObject *new_bytes(size_t count, size_t width, void *bytes) {
    PyObject *made = NULL;

    if (count <= PY_SSIZE_T_MAX / width) made = PyByteArray_FromStringAndSize(NULL, (Py_ssize_t)(count * width));
    if (!made && !PyErr_Occurred()) PyErr_NoMemory();
    if (made) *(void **)bytes = PyByteArray_AsString(made);
    return made;
}

PyObject *new_findings(size_t count, int is_all, findings *out) {
    PyObject *verdicts = new_bytes(count, 1, &out->verdicts), *rules = NULL, *places = NULL, *made = NULL;

    if (verdicts && !is_all) made = PyTuple_Pack(1, verdicts);
    if (verdicts && is_all && (rules = new_bytes(count, 1, &out->rules)) && (places = new_bytes(count, 8, &out->places)))
        made = PyTuple_Pack(3, verdicts, rules, places);
    Py_XDECREF(verdicts);
    Py_XDECREF(rules);
    Py_XDECREF(places);
    return made;
}

/* ---- over a list */

/* Texts of a list that are joined. */
typedef struct piece {
    uint8_t *data;
    size_t length, room;
    int64_t offsets[PIECE_TEXTS + 1];
    uint8_t present[PIECE_TEXTS / 8];
    size_t count;
} piece;

/* Whether an object stands for a missing text: None, one of those that are given, or a float that is NaN. */
static int is_missing(PyObject *one, PyObject *missing) {
    double number;

    for (Py_ssize_t at = 0; at < PyTuple_Size(missing); at++)
        if (one == PyTuple_GetItem(missing, at)) return 1;
    if (!PyFloat_Check(one)) return 0;
    number = PyFloat_AsDouble(one);
    return number != number;
}

/* Appends the UTF-8 of a text: false and an error if it has none, or there is no memory. */
static int append_text(piece *piece, PyObject *text) {
    PyObject *bytes = PyUnicode_AsUTF8String(text);
    const uint8_t *from;
    size_t length;

    if (!bytes) return 0;
    from = bytes_of(bytes, &length);
    if (length > piece->room - piece->length) {
        size_t room = piece->length + length + PIECE_BYTES;
        uint8_t *data = realloc(piece->data, room);
        if (!data) {
            Py_DECREF(bytes);
            PyErr_NoMemory();
            return 0;
        }
        piece->data = data, piece->room = room;
    }
    /* (before the first text that isn't empty there is no memory) */
    if (length) memcpy(piece->data + piece->length, from, length);
    piece->length += length;
    Py_DECREF(bytes);
    return 1;
}

/* Joins the texts of a list from one on, as many as a piece has: false, and an error, if one isn't one. */
static int join(piece *piece, PyObject *list, Py_ssize_t from, PyObject *missing) {
    Py_ssize_t end = PyList_Size(list);

    piece->length = piece->count = 0;
    memset(piece->present, 0, sizeof piece->present);
    for (; from < end && piece->count < PIECE_TEXTS && piece->length < PIECE_BYTES; from++, piece->count++) {
        PyObject *one = PyList_GetItem(list, from);
        piece->offsets[piece->count] = (int64_t)piece->length;
        if (one && PyUnicode_Check(one)) {
            if (!append_text(piece, one)) return 0;
            piece->present[piece->count >> 3] |= (uint8_t)(1u << (piece->count & 7));
        } else if (!one || !is_missing(one, missing)) {
            if (one) refuse_text(one, "a text is a str");
            return 0;
        }
    }
    piece->offsets[piece->count] = (int64_t)piece->length;
    return 1;
}

/* What is asked of a list: to check its texts, or to make others of them, where `texts` isn't null. */
typedef struct list_call {
    state *state;
    PyObject *list, *missing;
    request request;
    findings out;
    int mends;
    makings made;
    PyObject *texts, *kinds; /* lists of what is made of each */
} list_call;

/* Reads (list, missing, base, profile, flag). */
static int read_list_call(PyObject *args, const char *format, list_call *call, int *flag) {
    PyObject *base, *profile;

    return PyArg_ParseTuple(args, format, &PyList_Type, &call->list, &PyTuple_Type, &call->missing, &base, &profile, flag)
           && read_valid_setting(call->state, base, profile, &call->request);
}

/* The texts that are made of a piece, put into the lists from one on. */
static int put_made(const list_call *call, size_t count, size_t from) {
    PyObject *none = call->state->none;

    for (size_t at = 0; at < count; at++) {
        const int64_t *ends = call->made.offsets + at;
        uint8_t mark = call->made.marks[at];
        PyObject *text = mark ? text_of(call->made.data + ends[0], (size_t)(ends[1] - ends[0])) : none;
        PyObject *kind = mark > 1 ? call->state->kind_names[(mark - 1) % KIND_COUNT] : none;
        if (!text) return 0;
        if (!mark) Py_INCREF(text);
        Py_INCREF(kind);
        if (PyList_SetItem(call->texts, (Py_ssize_t)(from + at), text) < 0) return 0;
        if (PyList_SetItem(call->kinds, (Py_ssize_t)(from + at), kind) < 0) return 0;
    }
    return 1;
}

/* What is asked of the texts of a piece, of which the first is text `from` of the list: false and an error. */
static int run_piece(list_call *call, const texts *texts, size_t from) {
    findings out = call->out;
    urlcheck_finding why = {0, 0, 0, 0};
    size_t stopped;

    if (out.verdicts) out.verdicts += from;
    if (out.rules) out.rules += from;
    if (out.places) out.places += from;
    Py_BEGIN_ALLOW_THREADS
    stopped = call->texts ? make_texts(texts, &call->request, call->mends, &call->made, &why)
                          : check_all(texts, &call->request, out, &why);
    Py_END_ALLOW_THREADS
    if (stopped < texts->count) return refuse_texts(call->state, why, from + stopped) != NULL;
    return !call->texts || put_made(call, texts->count, from);
}

/* What is asked of this many texts of a list, piece by piece: false and an error if one isn't checked. */
static int run_list(list_call *call, size_t count) {
    size_t done = 0;
    piece *piece = calloc(1, sizeof *piece);

    if (!piece) return PyErr_NoMemory() != NULL;
    while (done < count && join(piece, call->list, (Py_ssize_t)done, call->missing)) {
        texts texts = {piece->data, piece->offsets, piece->count, piece->present, 0};
        if (texts.count > count - done) texts.count = count - done; /* (the list has grown) */
        if (texts.count == 0 || !run_piece(call, &texts, done)) break;
        done += texts.count;
    }
    free(piece->data);
    free(piece);
    if (done < count && !PyErr_Occurred()) PyErr_SetString(PyExc_RuntimeError, "the list changed while it was checked");
    return done == count;
}

/* check_texts(list, missing, base, profile, is_all): the verdicts, and of all the rules and the places too. */
PyObject *native_check_texts(PyObject *module, PyObject *args) {
    list_call call = {.state = PyModule_GetState(module)};
    PyObject *answer = NULL;
    int is_all;

    if (read_list_call(args, "O!O!OOp:check_texts", &call, &is_all)) {
        size_t count = (size_t)PyList_Size(call.list);
        answer = new_findings(count, is_all, &call.out);
        if (answer && !run_list(&call, count)) Py_CLEAR(answer);
    }
    drop_request(&call.request);
    return answer;
}

/* write_texts(list, missing, base, profile, mends): a list of texts and one of kinds, each None if there is none. */
PyObject *native_write_texts(PyObject *module, PyObject *args) {
    int64_t offsets[PIECE_TEXTS + 1];
    uint8_t marks[PIECE_TEXTS];
    list_call call = {.state = PyModule_GetState(module), .made = {.offsets = offsets, .marks = marks}};
    PyObject *answer = NULL;

    if (read_list_call(args, "O!O!OOp:write_texts", &call, &call.mends)) {
        size_t count = (size_t)PyList_Size(call.list);
        call.texts = PyList_New((Py_ssize_t)count), call.kinds = PyList_New((Py_ssize_t)count);
        if (call.texts && call.kinds && run_list(&call, count)) answer = PyTuple_Pack(2, call.texts, call.kinds);
    }
    free(call.made.data);
    Py_XDECREF(call.texts);
    Py_XDECREF(call.kinds);
    drop_request(&call.request);
    return answer;
}
