/* What include/urlcheck.h, the glue and the folder platform/ need of the C library's header, for a compiler without one. */
#ifndef URLCHECK_STDINT_H
#define URLCHECK_STDINT_H
typedef __INT32_TYPE__ int32_t;
typedef __INT64_TYPE__ int64_t;
typedef __UINT8_TYPE__ uint8_t;
typedef __UINT32_TYPE__ uint32_t;
typedef __UINT64_TYPE__ uint64_t;
typedef __UINTPTR_TYPE__ uintptr_t;
#endif
