/* loads MODULE: loads an extension module, as Python does, and prints its name and its functions' names, in order. */
#define Py_LIMITED_API 0x03080000
#include <Python.h>

#include <stdio.h>
#include <stdlib.h>
#include <string.h>
#include <windows.h>

static int ordered(const void *one, const void *other) {
    return strcmp(*(const char *const *)one, *(const char *const *)other);
}

int main(int count, char **words) {
    HMODULE module = count == 2 ? LoadLibraryA(words[1]) : NULL;
    FARPROC begins = module ? GetProcAddress(module, "PyInit__native") : NULL;
    const char *names[256];
    size_t at = 0;

    if (!begins) return (fprintf(stderr, "it isn't loaded: %lu\n", GetLastError()), 1);
    const PyModuleDef *definition = (const PyModuleDef *)((PyObject * (*)(void))(void *)begins)();
    for (const PyMethodDef *it = definition->m_methods; it->ml_name && at < 256; it++) names[at++] = it->ml_name;
    qsort(names, at, sizeof *names, ordered);
    printf("%s\n", definition->m_name);
    for (size_t name = 0; name < at; name++) printf("%s\n", names[name]);
    return 0;
}
