/*
 * Python's headers are those of the machine that builds. This compiles for another one where the sizes that pyconfig.h tells
 * are the other's, too.
 */
#define Py_LIMITED_API 0x03080000
#include <Python.h>

#include <time.h>
#include <wchar.h>

#define SAME(size, type) _Static_assert((size) == sizeof(type), "the headers of Python are those of other sizes")

SAME(SIZEOF_SHORT, short);
SAME(SIZEOF_INT, int);
SAME(SIZEOF_LONG, long);
SAME(SIZEOF_LONG_LONG, long long);
SAME(SIZEOF_SIZE_T, size_t);
SAME(SIZEOF_VOID_P, void *);
SAME(SIZEOF_FLOAT, float);
SAME(SIZEOF_DOUBLE, double);
SAME(SIZEOF_WCHAR_T, wchar_t);
SAME(SIZEOF_TIME_T, time_t);
SAME(SIZEOF_OFF_T, off_t);

#if defined(WORDS_BIGENDIAN) != (__BYTE_ORDER__ == __ORDER_BIG_ENDIAN__)
#error "the headers of Python are those of another order of bytes"
#endif
