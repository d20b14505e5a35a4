/* The program's start: of its two builds, for plain x86-64 and for x86-64-v2, the one that this processor runs. */
#include "processor.h"

int urlcheck_main_x86_64(int count, char **words, char **environment);
int urlcheck_main_x86_64_v2(int count, char **words, char **environment);

int main(int count, char **words, char **environment) {
    return is_x86_64_v2() ? urlcheck_main_x86_64_v2(count, words, environment)
                          : urlcheck_main_x86_64(count, words, environment);
}
