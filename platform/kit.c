/*
 * What the toolchain's archives give a program on x86-64, for one that the toolchain itself has compiled for another
 * Linux: its arguments, its environment and its errors. All else that the program calls is the C library's own.
 */
#include <errno.h>
#include <stdlib.h>

#include "arguments.h"
#include "platform.h"

/* The program's own main, which takes no words. */
int kit_main(void);

int64_t rattle_arg(uint64_t number, uint8_t *buffer, uint64_t room);
int64_t rattle_env(const char *name, uint8_t *buffer, uint64_t room);
int32_t rattle_errno(void);
void rattle_set_errno(int32_t error);

int64_t rattle_arg(uint64_t number, uint8_t *buffer, uint64_t room) { return platform_arg(number, buffer, room); }

int64_t rattle_env(const char *name, uint8_t *buffer, uint64_t room) { return copy_word(getenv(name), buffer, room); }

int32_t rattle_errno(void) { return errno; }

void rattle_set_errno(int32_t error) { errno = error; }

int main(int count, char **words) {
    keep_arguments(count, words);
    return kit_main();
}
