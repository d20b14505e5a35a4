/*
 * A substitute for python3.dll: it has the names that platform/python/python3.def lists, hands back a definition of a
 * module, and ends the process where anything else is called.
 */
#include <stdlib.h>

#define SUBSTITUTE(name) \
    __declspec(dllexport) void name(void); \
    void name(void) { exit(3); }

#include "substituted.h"

__declspec(dllexport) void *PyModuleDef_Init(void *definition);
void *PyModuleDef_Init(void *definition) { return definition; }
