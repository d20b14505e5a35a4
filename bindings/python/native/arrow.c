/*
 * Columns by the Arrow C data interface (Arrow Columnar Format, "The Arrow C data interface" and "The Arrow PyCapsule
 * Interface"): arrays of strings are checked where they are, and answers are handed out without a copy.
 */
#include "native.h"

#include <stdlib.h>
#include <string.h>

/* The structs of the interface, as it gives them. */
struct ArrowSchema {
    const char *format;
    const char *name;
    const char *metadata;
    int64_t flags;
    int64_t n_children;
    struct ArrowSchema **children;
    struct ArrowSchema *dictionary;
    void (*release)(struct ArrowSchema *);
    void *private_data;
};

struct ArrowArray {
    int64_t length;
    int64_t null_count;
    int64_t offset;
    int64_t n_buffers;
    int64_t n_children;
    const void **buffers;
    struct ArrowArray **children;
    struct ArrowArray *dictionary;
    void (*release)(struct ArrowArray *);
    void *private_data;
};

struct ArrowArrayStream {
    int (*get_schema)(struct ArrowArrayStream *, struct ArrowSchema *out);
    int (*get_next)(struct ArrowArrayStream *, struct ArrowArray *out);
    const char *(*get_last_error)(struct ArrowArrayStream *);
    void (*release)(struct ArrowArrayStream *);
    void *private_data;
};

/* The flag of a schema by which texts may be missing: ARROW_FLAG_NULLABLE. */
enum { NULLABLE = 2 };

/* ---- what comes in */

/* The error for an array that isn't as the interface says; null, to be returned. */
static PyObject *refuse_array(const char *why) {
    PyErr_Format(PyExc_ValueError, "the array is broken: %s", why);
    return NULL;
}

/* What is asked of the texts of an array. */
typedef struct arrow_call {
    state *state;
    texts texts;
    int64_t *widened; /* its offsets, by malloc, if the array has ones of 32 bits */
    request request;
} arrow_call;

/* Offsets of 32 bits as ones of 64, by malloc. */
static int64_t *widened_of(const int32_t *offsets, size_t count) {
    int64_t *wide = count > SIZE_MAX / sizeof *wide ? NULL : malloc(count * sizeof *wide);

    for (size_t at = 0; wide && at < count; at++) wide[at] = offsets[at];
    if (!wide) PyErr_NoMemory();
    return wide;
}

/* Reads the offsets of an array's texts, one more than there are. */
static int read_offsets(const struct ArrowArray *array, int is_wide, arrow_call *call) {
    texts *texts = &call->texts;

    if (texts->count == 0) return 1;
    if (!array->buffers[1]) return refuse_array("it has no offsets") != NULL;
    if (is_wide) {
        texts->offsets = (const int64_t *)array->buffers[1] + texts->first;
    } else {
        call->widened = widened_of((const int32_t *)array->buffers[1] + texts->first, texts->count + 1);
        texts->offsets = call->widened;
    }
    if (texts->offsets && !texts->data && texts->offsets[texts->count] > 0)
        return refuse_array("it has no bytes") != NULL;
    return texts->offsets != NULL;
}

/* Reads the texts of an array: false and an error if it has none. */
static int read_texts(PyObject *schema_capsule, PyObject *array_capsule, arrow_call *call) {
    const struct ArrowSchema *schema = PyCapsule_GetPointer(schema_capsule, "arrow_schema");
    const struct ArrowArray *array = schema ? PyCapsule_GetPointer(array_capsule, "arrow_array") : NULL;

    if (!array) return 0;
    if (!schema->release || !array->release) return refuse_array("it was released before") != NULL;
    if (schema->dictionary || !schema->format || strlen(schema->format) != 1 || !strchr("uUzZ", schema->format[0])) {
        PyErr_Format(PyExc_TypeError, "an array of strings is wanted, not one of the Arrow format %s%s",
                     schema->format ? schema->format : "", schema->dictionary ? " with a dictionary" : "");
        return 0;
    }
    if (array->length < 0 || array->offset < 0 || array->n_buffers != 3 || !array->buffers)
        return refuse_array("it has no length, or other buffers than strings have") != NULL;
    call->texts.count = (size_t)array->length;
    call->texts.first = (size_t)array->offset;
    call->texts.present = array->null_count == 0 ? NULL : array->buffers[0];
    call->texts.data = array->buffers[2];
    return read_offsets(array, strchr("UZ", schema->format[0]) != NULL, call);
}

/* Reads (schema, array, base, profile, flag). */
static int read_call(PyObject *args, const char *format, arrow_call *call, int *flag) {
    PyObject *schema, *array, *base, *profile;

    return PyArg_ParseTuple(args, format, &schema, &array, &base, &profile, flag) && read_texts(schema, array, call)
           && read_valid_setting(call->state, base, profile, &call->request);
}

/* Gives back what a call holds. */
static void drop_call(arrow_call *call) {
    free(call->widened);
    drop_request(&call->request);
}

/* check_arrow(schema, array, base, profile, is_all): as check_texts. */
PyObject *native_check_arrow(PyObject *module, PyObject *args) {
    arrow_call call = {.state = PyModule_GetState(module)};
    findings out = {NULL, NULL, NULL};
    PyObject *answer = NULL;
    urlcheck_finding why = {0, 0, 0, 0};
    size_t stopped;
    int is_all;

    if (read_call(args, "OOOOp:check_arrow", &call, &is_all)
        && (answer = new_findings(call.texts.count, is_all, &out))) {
        Py_BEGIN_ALLOW_THREADS
        stopped = check_all(&call.texts, &call.request, out, &why);
        Py_END_ALLOW_THREADS
        if (stopped < call.texts.count) {
            Py_CLEAR(answer);
            refuse_texts(call.state, why, stopped);
        }
    }
    drop_call(&call);
    return answer;
}

/* write_arrow(schema, array, base, profile, mends): the bytes of the texts that are made, their offsets and their marks. */
PyObject *native_write_arrow(PyObject *module, PyObject *args) {
    arrow_call call = {.state = PyModule_GetState(module)};
    makings made = {NULL, 0, 0, NULL, NULL};
    PyObject *offsets = NULL, *marks = NULL, *answer = NULL;
    urlcheck_finding why = {0, 0, 0, 0};
    size_t stopped;
    int mends;

    if (read_call(args, "OOOOp:write_arrow", &call, &mends)
        && (offsets = new_bytes(call.texts.count + 1, 8, &made.offsets))
        && (marks = new_bytes(call.texts.count, 1, &made.marks))) {
        Py_BEGIN_ALLOW_THREADS
        stopped = make_texts(&call.texts, &call.request, mends, &made, &why);
        Py_END_ALLOW_THREADS
        if (stopped < call.texts.count)
            refuse_texts(call.state, why, stopped);
        else
            answer = Py_BuildValue("(NOO)", PyBytes_FromStringAndSize((const char *)made.data, (Py_ssize_t)made.length),
                                   offsets, marks);
    }
    free(made.data);
    Py_XDECREF(offsets);
    Py_XDECREF(marks);
    drop_call(&call);
    return answer;
}

/* ---- what goes out */

/* The bits of a mark for each byte of a bytearray: 1 if it is the value, or if it isn't; and how many are 0. */
PyObject *native_bits(PyObject *module, PyObject *args) {
    PyObject *given, *made, *answer = NULL;
    int value, is_equal;
    Py_ssize_t ones = 0;
    uint8_t *bits;

    (void)module;
    if (!PyArg_ParseTuple(args, "O!ip:bits", &PyByteArray_Type, &given, &value, &is_equal)) return NULL;
    Py_ssize_t count = PyByteArray_Size(given);
    const uint8_t *bytes = (const uint8_t *)PyByteArray_AsString(given);
    made = new_bytes(((size_t)count + 7) / 8, 1, &bits);
    if (!made) return NULL;
    memset(bits, 0, ((size_t)count + 7) / 8);
    for (Py_ssize_t at = 0; at < count; at++) {
        uint8_t bit = (bytes[at] == value) == is_equal;
        bits[at >> 3] |= (uint8_t)(bit << (at & 7));
        ones += bit;
    }
    answer = Py_BuildValue("(On)", made, count - ones);
    Py_DECREF(made);
    return answer;
}

/* An array that is handed out: the objects that its buffers are of, which it holds until it is released. */
typedef struct handed {
    PyObject *held;
    const void *buffers[3];
    struct ArrowArray dictionary;
} handed;

/* What a reader of a schema calls when it is done. A NULL callback says that it was released, as the interface asks. */
static void release_schema(struct ArrowSchema *schema) {
    if (schema->dictionary) {
        if (schema->dictionary->release) schema->dictionary->release(schema->dictionary);
        free(schema->dictionary);
    }
    schema->release = NULL;
}

/* The same of an array, perhaps in another thread, so the interpreter's lock is taken to give back its buffers. */
static void release_array(struct ArrowArray *array) {
    handed *handed = array->private_data;
    PyGILState_STATE lock;

    if (array->dictionary && array->dictionary->release) array->dictionary->release(array->dictionary);
    lock = PyGILState_Ensure();
    Py_XDECREF(handed->held);
    PyGILState_Release(lock);
    free(handed);
    array->release = NULL;
}

/* Releases a schema that no reader took over, and gives back its memory. An error that is on its way stays, since what is
 * called may run Python. */
static void free_schema(struct ArrowSchema *schema) {
    PyObject *error, *value, *trace;

    PyErr_Fetch(&error, &value, &trace);
    if (schema && schema->release) schema->release(schema);
    free(schema);
    PyErr_Restore(error, value, trace);
}

/* The same of an array. */
static void free_array(struct ArrowArray *array) {
    PyObject *error, *value, *trace;

    PyErr_Fetch(&error, &value, &trace);
    if (array && array->release) array->release(array);
    free(array);
    PyErr_Restore(error, value, trace);
}

/* What Python calls for a capsule that nobody has. */
static void drop_schema(PyObject *capsule) { free_schema(PyCapsule_GetPointer(capsule, "arrow_schema")); }

static void drop_array(PyObject *capsule) { free_array(PyCapsule_GetPointer(capsule, "arrow_array")); }

/* The format as a text that is in the program. */
static const char *format_of(const char *given) {
    static const char *const formats[] = {"b", "c", "l", "U"};

    for (size_t at = 0; at < sizeof formats / sizeof *formats; at++)
        if (strcmp(given, formats[at]) == 0) return formats[at];
    PyErr_SetString(PyExc_ValueError, "no format that is handed out");
    return NULL;
}

/* The bytes of an object of type bytes or bytearray. None has none. */
static const void *buffer_of(PyObject *given) {
    if (PyBytes_Check(given)) return PyBytes_AsString(given);
    return PyByteArray_Check(given) ? PyByteArray_AsString(given) : NULL;
}

/* Fills an array and its schema of (format, length, missing, buffers, dictionary): false and an error. */
static int fill(PyObject *column, struct ArrowSchema *schema, struct ArrowArray *array) {
    const char *format;
    Py_ssize_t length, missing;
    PyObject *buffers, *dictionary;
    handed *handed;

    if (!PyArg_ParseTuple(column, "snnO!O:export", &format, &length, &missing, &PyTuple_Type, &buffers, &dictionary)
        || !(format = format_of(format)))
        return 0;
    handed = calloc(1, sizeof *handed);
    if (!handed) return PyErr_NoMemory() != NULL;
    for (Py_ssize_t at = 0; at < PyTuple_Size(buffers) && at < 3; at++)
        handed->buffers[at] = buffer_of(PyTuple_GetItem(buffers, at));
    array->length = length, array->null_count = missing, array->n_buffers = PyTuple_Size(buffers);
    array->buffers = handed->buffers;
    schema->format = format, schema->name = "", schema->flags = NULLABLE;
    if (PyTuple_Check(dictionary)) {
        schema->dictionary = calloc(1, sizeof *schema->dictionary);
        if (!schema->dictionary || !fill(dictionary, schema->dictionary, &handed->dictionary)) {
            if (!schema->dictionary) PyErr_NoMemory();
            free(schema->dictionary);
            free(handed);
            return 0;
        }
        array->dictionary = &handed->dictionary;
    }
    Py_INCREF(buffers);
    handed->held = buffers;
    array->private_data = handed;
    array->release = release_array, schema->release = release_schema;
    return 1;
}

/* export((format, length, missing, buffers, dictionary)): the capsules of a schema and an array. */
PyObject *native_export(PyObject *module, PyObject *args) {
    struct ArrowSchema *schema = calloc(1, sizeof *schema);
    struct ArrowArray *array = calloc(1, sizeof *array);
    PyObject *column, *schema_capsule = NULL, *array_capsule = NULL, *answer = NULL;

    (void)module;
    if (!schema || !array) PyErr_NoMemory();
    if (schema && array && PyArg_ParseTuple(args, "O!:export", &PyTuple_Type, &column) && fill(column, schema, array)) {
        schema_capsule = PyCapsule_New(schema, "arrow_schema", drop_schema);
        array_capsule = PyCapsule_New(array, "arrow_array", drop_array);
        if (schema_capsule && array_capsule) answer = PyTuple_Pack(2, schema_capsule, array_capsule);
    }
    if (!schema_capsule) free_schema(schema);
    if (!array_capsule) free_array(array);
    Py_XDECREF(schema_capsule);
    Py_XDECREF(array_capsule);
    return answer;
}

/* layout(schema): the format of a schema; of indexes into a dictionary, and after a space the dictionary's. */
PyObject *native_layout(PyObject *module, PyObject *capsule) {
    const struct ArrowSchema *schema = PyCapsule_GetPointer(capsule, "arrow_schema");

    (void)module;
    if (!schema) return NULL;
    if (!schema->release || !schema->format) return refuse_array("it was released before");
    if (!schema->dictionary || !schema->dictionary->format) return PyUnicode_FromString(schema->format);
    return PyUnicode_FromFormat("%s %s", schema->format, schema->dictionary->format);
}

/* ---- a stream of arrays */

/* The next array of a stream in a capsule: None at its end, null and an error if it gives none. */
static PyObject *next_array(struct ArrowArrayStream *stream) {
    struct ArrowArray *array = calloc(1, sizeof *array);
    const char *said;
    PyObject *capsule;

    if (!array) return PyErr_NoMemory();
    if (stream->get_next(stream, array) != 0) {
        said = stream->get_last_error(stream);
        PyErr_Format(PyExc_ValueError, "the stream is broken: %s", said ? said : "it says not why");
        free(array);
        return NULL;
    }
    if (!array->release) {
        free(array);
        Py_INCREF(Py_None);
        return Py_None;
    }
    capsule = PyCapsule_New(array, "arrow_array", drop_array);
    if (!capsule) free_array(array);
    return capsule;
}

/* The schema of a stream in a capsule, or null and an error. */
static PyObject *schema_of(struct ArrowArrayStream *stream) {
    struct ArrowSchema *schema = calloc(1, sizeof *schema);
    PyObject *capsule;

    if (!schema) return PyErr_NoMemory();
    if (stream->get_schema(stream, schema) != 0) {
        free(schema);
        PyErr_SetString(PyExc_ValueError, "the stream is broken: it has no schema");
        return NULL;
    }
    capsule = PyCapsule_New(schema, "arrow_schema", drop_schema);
    if (!capsule) free_schema(schema);
    return capsule;
}

/* arrays_of(stream): the schema of a stream and the list of its arrays, in capsules. */
PyObject *native_arrays_of(PyObject *module, PyObject *capsule) {
    struct ArrowArrayStream *stream = PyCapsule_GetPointer(capsule, "arrow_array_stream");
    PyObject *schema, *list = PyList_New(0), *array = NULL, *answer = NULL;

    (void)module;
    if (!stream || !list || !stream->release) {
        if (stream && list) PyErr_SetString(PyExc_ValueError, "the stream is broken: it was released before");
        Py_XDECREF(list);
        return NULL;
    }
    schema = schema_of(stream);
    while (schema && (array = next_array(stream)) && array != Py_None && PyList_Append(list, array) == 0)
        Py_DECREF(array);
    if (array == Py_None) answer = PyTuple_Pack(2, schema, list);
    Py_XDECREF(array);
    Py_XDECREF(schema);
    Py_DECREF(list);
    return answer;
}
