/* The program's arguments, kept by a shim's main until the proved program asks for them: see arguments.h. */
#include "arguments.h"

#include "platform.h"

static uint64_t kept_count;
static char **kept_words;

void keep_arguments(int count, char **words) {
    kept_count = (uint64_t)count;
    kept_words = words;
}

int64_t copy_word(const char *word, uint8_t *buffer, uint64_t room) {
    if (word == NULL) return -1;
    uint64_t length = 0;
    for (; word[length] != 0; length++) {
        if (length == room) return -2;
        buffer[length] = (uint8_t)word[length];
    }
    return (int64_t)length;
}

int64_t platform_arg(uint64_t number, uint8_t *buffer, uint64_t room) {
    return copy_word(number < kept_count ? kept_words[number] : NULL, buffer, room);
}
