/* Checks the lines of standard input by the library for C, as crates/bench_check does it: MODE ROUNDS PROFILE BASE, by
   only under the standard profile. Both find the lines before they check the first. `read` does no more, `check` checks each
   line, and `verdicts` writes `1` or `0` for each. A base is prepared once. If it is `own`, each text comes after a
   line with its base, which is prepared for that text alone. */
#include "urlcheck.h"

#include <stdio.h>
#include <stdlib.h>
#include <string.h>

struct line {
    const uint8_t *text;
    size_t length;
};

enum against { ALONE, KEPT, OWN };

/* What the lines are checked against. */
struct setting {
    enum against against;
    urlcheck_base base;
};

/* Finds the lines that aren't empty, and says how many there are. */
static size_t cut(const char *text, size_t size, struct line *lines) {
    size_t count = 0;
    for (size_t from = 0; from < size;) {
        const char *end = memchr(text + from, '\n', size - from);
        size_t length = end ? (size_t)(end - (text + from)) : size - from;
        if (length) lines[count++] = (struct line){(const uint8_t *)text + from, length};
        from += length + 1;
    }
    return count;
}

/* Alone where the base is null. */
static size_t count_each(const struct line *lines, size_t count, const urlcheck_base *base) {
    size_t valid = 0;
    for (size_t at = 0; at < count; at++) {
        urlcheck_answer answer = urlcheck_check(lines[at].text, lines[at].length, URLCHECK_STANDARD, base);
        valid += answer.found.verdict == URLCHECK_VALID;
    }
    return valid;
}

/* Each second line against the one before it. */
static size_t count_own(const struct line *lines, size_t count) {
    size_t valid = 0;
    for (size_t at = 1; at < count; at += 2) {
        urlcheck_base base = urlcheck_prepare(lines[at - 1].text, lines[at - 1].length, URLCHECK_STANDARD);
        valid += count_each(lines + at, 1, &base);
    }
    return valid;
}

/* How many of the texts in so many lines are valid. */
static size_t count_valid(const struct line *lines, size_t count, const struct setting *setting) {
    switch (setting->against) {
    case KEPT: return count_each(lines, count, &setting->base);
    case OWN: return count_own(lines, count);
    default: return count_each(lines, count, NULL);
    }
}

/* A verdict for each text, all in one line. */
static void put_verdicts(const struct line *lines, size_t count, const struct setting *setting) {
    size_t step = setting->against == OWN ? 2 : 1;
    for (size_t at = 0; at + step <= count; at += step) {
        putchar(count_valid(lines + at, step, setting) ? '1' : '0');
    }
    putchar('\n');
}

/* The setting that a base's text makes; an empty one counts as none. */
static struct setting setting_of(const char *base) {
    struct setting setting = {.against = *base ? KEPT : ALONE};
    if (strcmp(base, "own") == 0) {
        setting.against = OWN;
    } else if (*base) {
        setting.base = urlcheck_prepare((const uint8_t *)base, strlen(base), URLCHECK_STANDARD);
    }
    return setting;
}

int main(int count, char **words) {
    const char *mode = count > 1 ? words[1] : "check", *profile = count > 3 ? words[3] : "standard";
    size_t rounds = count > 2 ? strtoul(words[2], NULL, 10) : 1, room = 1u << 26, valid = 0;
    struct setting setting = setting_of(count > 4 ? words[4] : "");
    char *text = malloc(room);
    struct line *lines = malloc(room / 2 * sizeof *lines);
    if (!text || !lines || strcmp(profile, "standard") != 0) return 2;
    size_t found = cut(text, fread(text, 1, room, stdin), lines);
    if (strcmp(mode, "verdicts") == 0) {
        put_verdicts(lines, found, &setting);
    } else {
        for (size_t round = 0; round < rounds && strcmp(mode, "check") == 0; round++) {
            valid = count_valid(lines, found, &setting);
        }
        printf("%zu lines, %zu valid\n", found, valid);
    }
    free(lines);
    free(text);
    return 0;
}
