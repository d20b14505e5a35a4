/* The module: its functions, and what it is handed of the package and holds. */
#include "native.h"

#include <stdio.h>

/* What a base is found to be: its profile, its bytes and the struct, the last two as objects of type `bytes`. */
static PyObject *native_prepare(PyObject *module, PyObject *args) {
    state *state = PyModule_GetState(module);
    PyObject *text, *profile, *made = NULL;
    request request = {0};

    if (!PyArg_ParseTuple(args, "OO:prepare", &text, &profile)) return NULL;
    if (read_valid_setting(state, text, profile, &request))
        made = Py_BuildValue("(OOy#)", state->profiles[request.profile], request.base_bytes,
                             (const char *)&request.prepared, (Py_ssize_t)sizeof request.prepared);
    drop_request(&request);
    return made;
}

/* The version of the library, as a number. */
static PyObject *native_version(PyObject *module, PyObject *args) {
    (void)module, (void)args;
    return PyLong_FromUnsignedLong(urlcheck_version());
}

/* Takes the tuple's objects over into the fields, which are as many, in place of what they have. */
static int take_all(PyObject *tuple, PyObject **fields, Py_ssize_t count) {
    if (PyTuple_Size(tuple) != count) return 0;
    for (Py_ssize_t at = 0; at < count; at++) {
        PyObject *before = fields[at];
        fields[at] = PyTuple_GetItem(tuple, at);
        Py_INCREF(fields[at]);
        Py_XDECREF(before);
    }
    return 1;
}

/* use(classes, profiles, kinds, kind_names, rules): what the package hands over when it is loaded, or loaded again. */
static PyObject *native_use(PyObject *module, PyObject *args) {
    state *state = PyModule_GetState(module);
    PyObject *classes, *profiles, *kinds, *kind_names, *rules;

    if (!PyArg_ParseTuple(args, "O!O!O!O!O!:use", &PyTuple_Type, &classes, &PyTuple_Type, &profiles, &PyTuple_Type,
                          &kinds, &PyTuple_Type, &kind_names, &PyTuple_Type, &rules))
        return NULL;
    if (!take_all(classes, &state->valid, 7) || !take_all(profiles, state->profiles, PROFILE_COUNT)
        || !take_all(kinds, state->kinds, KIND_COUNT) || !take_all(kind_names, state->kind_names, KIND_COUNT)
        || !take_all(rules, state->rules, RULE_COUNT)) {
        PyErr_SetString(PyExc_ValueError, "the package isn't the module's");
        return NULL;
    }
    Py_INCREF(state->none);
    return state->none;
}

#define ARGUMENTS "(text, base=None, profile=None)\n--\n\n"
#define RAISES                                                                                                         \
    "\n\nRaises ``BaseRefused`` where the base isn't valid alone, ``UnicodeEncodeError`` where a text holds a "         \
    "surrogate,\nwhich is no code point of a text, ``TypeError`` where the text or the base is no ``str``, "            \
    "``ValueError`` where no\nprofile has the number or the name, or the base has another one, and ``MemoryError``."

static PyMethodDef methods[] = {
    {"check", (PyCFunction)(void (*)(void))native_check, METH_VARARGS | METH_KEYWORDS,
     "check" ARGUMENTS "Whether the text is a valid URL string, alone or against the base." RAISES},
    {"is_valid", (PyCFunction)(void (*)(void))native_is_valid, METH_VARARGS | METH_KEYWORDS,
     "is_valid" ARGUMENTS
     "Whether the text is a valid URL string, alone or against the base, without its parts: the fastest call." RAISES},
    {"resolve", (PyCFunction)(void (*)(void))native_resolve, METH_VARARGS | METH_KEYWORDS,
     "resolve" ARGUMENTS
     "The text of the URL record that the text denotes, alone or against the base, or its refusal." RAISES},
    {"mend", (PyCFunction)(void (*)(void))native_mend, METH_VARARGS | METH_KEYWORDS,
     "mend" ARGUMENTS
     "What to write in place of a refused text: a valid one made of it by local edits, which keep all else.\n\n"
     "``None`` where the text is valid, and its refusal where the edits give no valid text." RAISES},
    {"violations", (PyCFunction)(void (*)(void))native_violations, METH_VARARGS | METH_KEYWORDS,
     "violations" ARGUMENTS
     "All that is wrong with the text, by place and at one place by the rule's number; none where it is valid." RAISES},
    {"prepare", native_prepare, METH_VARARGS, NULL},
    {"text", native_text, METH_VARARGS, NULL},
    {"example_place", native_example_place, METH_VARARGS, NULL},
    {"message", native_message, METH_VARARGS, NULL},
    {"report_begin", native_report_begin, METH_VARARGS, NULL},
    {"file_begin", native_file_begin, METH_VARARGS, NULL},
    {"diagnostic", native_diagnostic, METH_VARARGS, NULL},
    {"file_end", native_file_end, METH_VARARGS, NULL},
    {"report_end", native_report_end, METH_VARARGS, NULL},
    {"column", native_column, METH_VARARGS, NULL},
    {"shows_mended", native_shows_mended, METH_VARARGS, NULL},
    {"takes_unit", native_takes_unit, METH_VARARGS, NULL},
    {"version", native_version, METH_NOARGS, NULL},
    {"use", native_use, METH_VARARGS, NULL},
    {"check_texts", native_check_texts, METH_VARARGS, NULL},
    {"write_texts", native_write_texts, METH_VARARGS, NULL},
    {"check_arrow", native_check_arrow, METH_VARARGS, NULL},
    {"write_arrow", native_write_arrow, METH_VARARGS, NULL},
    {"arrays_of", native_arrays_of, METH_O, NULL},
    {"layout", native_layout, METH_O, NULL},
    {"export", native_export, METH_VARARGS, NULL},
    {"bits", native_bits, METH_VARARGS, NULL},
    {NULL, NULL, 0, NULL},
};

/* Makes the names of fields and parts once, so that no answer has to. Python calls it when the module is loaded. */
static int begin(PyObject *module) {
    static const char *const parts[PART_COUNT] = {"scheme", "host", "port", "path", "query", "fragment"};
    state *state = PyModule_GetState(module);
    const struct { PyObject **at; const char *name; } names[] = {
        {&state->rule, "rule"}, {&state->place, "place"},           {&state->text, "text"},     {&state->kind, "kind"},
        {&state->held, "_held"}, {&state->is_offered, "is_offered"}, {&state->dict, "__dict__"}, {&state->data, "_data"},
    };

    for (int number = 0; number < PART_COUNT; number++)
        if (!(state->parts[number] = PyUnicode_InternFromString(parts[number]))) return -1;
    for (size_t at = 0; at < sizeof names / sizeof *names; at++)
        if (!(*names[at].at = PyUnicode_InternFromString(names[at].name))) return -1;
    state->no_arguments = PyTuple_New(0);
    state->none = Py_None;
    Py_INCREF(state->none);
    return state->no_arguments ? 0 : -1;
}

/* The objects that the state holds, one after the other. */
enum { HELD = sizeof(state) / sizeof(PyObject *) };

/* (what Python's collector asks of a module that holds objects) */
static int visit_all(PyObject *module, visitproc visit, void *arg) {
    PyObject **held = PyModule_GetState(module);

    for (int at = 0; held && at < HELD; at++) Py_VISIT(held[at]);
    return 0;
}

static int clear_all(PyObject *module) {
    PyObject **held = PyModule_GetState(module);

    for (int at = 0; held && at < HELD; at++) Py_CLEAR(held[at]);
    return 0;
}

static void free_all(void *module) { clear_all(module); }

/* From 3.12 on a module says whether it may be imported where an interpreter has a lock of its own. Older versions, which
 * the stable ABI is for, refuse a slot that they don't know. */
enum { MULTIPLE_INTERPRETERS = 3, OWN_LOCK = 2 };

static PyModuleDef_Slot slots[] = {{Py_mod_exec, (void *)begin}, {0, NULL}, {0, NULL}};

static struct PyModuleDef definition = {
    PyModuleDef_HEAD_INIT, "urlcheck._native", "The library, called from Python.", sizeof(state), methods, slots,
    visit_all,             clear_all,          free_all,
};

static int has_own_locks(void) {
    int major = 0, minor = 0;

    return sscanf(Py_GetVersion(), "%d.%d", &major, &minor) == 2 && (major > 3 || minor >= 12);
}

__attribute__((visibility("default"))) PyMODINIT_FUNC PyInit__native(void) {
    if (has_own_locks()) slots[1] = (PyModuleDef_Slot){MULTIPLE_INTERPRETERS, (void *)(intptr_t)OWN_LOCK};
    return PyModuleDef_Init(&definition);
}
