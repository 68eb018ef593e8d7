/* Vectors: a test's inputs and what must come back, from tests/vectors/NAME.in and NAME.out. The tests run from the repository's root.
   A file that is missing, cut short or wrong ends the test with a failure. */
#ifndef VECTORS_H
#define VECTORS_H

#include "check.h"

#include <stdlib.h>

static FILE *inputs, *answers;

static inline void end_badly(const char *why) {
    printf("the vectors: %s\n", why);
    checks++;
    failures++;
    exit(close_checks());
}

static inline void open_vectors(const char *in, const char *out) {
    inputs = fopen(in, "rb");
    answers = fopen(out, "rb");
    if (!inputs || !answers)
        end_badly("a file is missing");
}

static inline int more(FILE *f) {
    int c = getc(f);
    return c != EOF && ungetc(c, f) == c;
}

/* The bytes that come next. */
static inline void take(FILE *f, void *to, size_t length) {
    if (fread(to, 1, length, f) != length)
        end_badly("a file is cut short");
}

/* The line that comes next, with NUL for its LF; its length. */
static inline size_t take_line(FILE *f, char *to, size_t room) {
    for (size_t i = 0; i < room; i++) {
        take(f, to + i, 1);
        if (to[i] == '\n') {
            to[i] = 0;
            return i;
        }
    }
    end_badly("a line is too long");
    return 0;
}

static inline void take_line_end(FILE *f) {
    char c;
    take(f, &c, 1);
    if (c != '\n')
        end_badly("a line end is missing");
}

/* A number in 8 columns. */
static inline size_t take_number(FILE *f) {
    char columns[9] = {0}, *end;
    take(f, columns, 8);
    size_t number = strtoul(columns, &end, 10);
    if (end != columns + 8)
        end_badly("a number is wrong");
    return number;
}

/* An input behind its length; its length. */
static inline size_t take_input(uint8_t *to, size_t room) {
    size_t length = take_number(inputs);
    take_line_end(inputs);
    if (length > room)
        end_badly("an input is too long");
    take(inputs, to, length);
    return length;
}

static inline void check_line(const char *what, const char *got, const char *wanted) {
    checks++;
    if (strcmp(got, wanted) != 0) {
        failures++;
        printf("%s: %s, and not %s\n", what, got, wanted);
    }
}

/* The checks of a vector count as one. */
static inline void close_vector(void) {
    static int checks_before, failures_before;
    checks = ++checks_before;
    failures_before += failures > failures_before;
    failures = failures_before;
}

/* So many inputs are there, and no answer is left over. */
static inline int close_vectors(size_t count, size_t wanted) {
    check("the vectors: inputs", count, wanted);
    check("the vectors: answers left over", more(answers), 0);
    return close_checks();
}

static inline int all(const uint8_t *s, size_t length, uint8_t b) {
    return length == 0 || (s[0] == b && memcmp(s, s + 1, length - 1) == 0);
}

#endif
