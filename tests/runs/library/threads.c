/* Four threads at once give the answers that one gives: each asks the same texts many times. */
#include "urlcheck.h"

#include <pthread.h>
#include <stdio.h>
#include <string.h>

enum { THREADS = 4, TURNS = 20000 };

static const char *const TEXTS[] = {"https://example.com/a?q#f", "http://h/a b", "http://fa\xc3\x9f.de/",
                                    "foo://[::1]:80/", "x"};
enum { COUNT = sizeof TEXTS / sizeof TEXTS[0] };

static size_t hash(const char *text) {
    urlcheck_answer answer = urlcheck_check((const uint8_t *)text, strlen(text), URLCHECK_STANDARD, NULL);
    uint8_t out[64] = {0};
    urlcheck_record resolved =
        urlcheck_resolve((const uint8_t *)text, strlen(text), URLCHECK_WIDE, NULL, 0, out, sizeof out);
    urlcheck_fault faults[4];
    urlcheck_fault_count count = urlcheck_faults((const uint8_t *)text, strlen(text), URLCHECK_STANDARD, NULL, faults, 4);
    size_t sum = answer.found.verdict + 31 * answer.found.place + 1009 * answer.parts.path.start
                 + 65537 * resolved.length + 1000003 * count.count;
    for (size_t at = 0; at < sizeof out; at++) sum = 31 * sum + out[at];
    return sum;
}

static void *run(void *given) {
    size_t sum = 0;
    for (size_t turn = 0; turn < TURNS; turn++) sum = 31 * sum + hash(TEXTS[turn % COUNT]);
    *(size_t *)given = sum;
    return NULL;
}

int main(void) {
    size_t wanted, sums[THREADS];
    pthread_t threads[THREADS];
    run(&wanted);
    for (int at = 0; at < THREADS; at++) {
        if (pthread_create(&threads[at], NULL, run, &sums[at])) return 1;
    }
    for (int at = 0; at < THREADS; at++) {
        pthread_join(threads[at], NULL);
        if (sums[at] != wanted) {
            printf("FAILED: thread %d differs\n", at);
            return 1;
        }
    }
    printf("library: %d threads at once, the same answers\n", THREADS);
    return 0;
}
