/* Checks that are counted, and the line that the gate adds up. */
#ifndef CHECK_H
#define CHECK_H

#include "levzhada.h"

#include <stdio.h>
#include <string.h>

/* the length of an option line: eleven digits and LF */
enum { LINE = 12 };

static int checks, failures;

static inline void check(const char *what, size_t got, size_t wanted) {
    checks++;
    if (got != wanted) {
        failures++;
        printf("%s: %zu, and not %zu\n", what, got, wanted);
    }
}

static inline void check_answer(const char *what, levzhada_answer a, size_t number, size_t second, size_t visits, size_t length) {
    checks++;
    if (a.number != number || a.second != second || a.visits != visits || a.length != length) {
        failures++;
        printf("%s: %zu %zu %zu %zu, and not %zu %zu %zu %zu\n", what, a.number, a.second, a.visits, a.length, number, second,
               visits, length);
    }
}

static inline void check_bytes(const char *what, const uint8_t *got, const char *wanted, size_t length) {
    checks++;
    if (memcmp(got, wanted, length) != 0) {
        failures++;
        printf("%s: other bytes\n", what);
    }
}

static inline const uint8_t *bytes(const char *s) { return (const uint8_t *)s; }

/* The last line, and the status of the program. */
static inline int close_checks(void) {
    printf("%d passed, %d failed\n", checks - failures, failures);
    return failures != 0;
}

#endif
