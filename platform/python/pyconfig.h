/*
 * What Python's headers ask of a system, for Windows on x86-64 by mingw-w64, as far as the stable ABI asks it. It
 * takes the place of the pyconfig.h of the machine that builds; ../python_sizes.c sees whether the sizes are those of
 * the compiler.
 */
#ifndef Py_CONFIG_H
#define Py_CONFIG_H

#define MS_WINDOWS
#define MS_WIN32
#define MS_WIN64

/* What is taken of Python is in python3.dll. */
#define Py_ENABLE_SHARED 1
#define HAVE_DECLSPEC_DLL 1

#define SIZEOF_SHORT 2
#define SIZEOF_INT 4
#define SIZEOF_LONG 4
#define SIZEOF_LONG_LONG 8
#define SIZEOF_SIZE_T 8
#define SIZEOF_VOID_P 8
#define SIZEOF_FLOAT 4
#define SIZEOF_DOUBLE 8
#define SIZEOF_WCHAR_T 2
#define SIZEOF_TIME_T 8
#define SIZEOF_OFF_T 4

#define HAVE_STDDEF_H 1
#define HAVE_STDINT_H 1

#endif
