/* Linked to a C program of tests/runs/library: it writes its lines as on Linux, with LF at their ends. */
#include <fcntl.h>
#include <io.h>

static __attribute__((constructor)) void writes_bytes(void) { _setmode(1, _O_BINARY); }
