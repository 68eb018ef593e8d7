/* The times of escape and of reading it back beside memcpy's, in ns a byte: the best and the median of rounds in which they take turns.
   Each writes into an out as long as it needs. A byte is one of the plain text, in the last two columns one of the escaped text.
   Use: gcc -O2 -I include bench/escapes.c target/staticlib/liblevzhada.a -o target/escapes && target/escapes [ROUNDS]      (51) */
#include "levzhada.h"

#include <stdio.h>
#include <stdlib.h>
#include <string.h>
#include <time.h>

enum { LARGEST = 1 << 20, MOST_ROUNDS = 1001, FUNCTIONS = 3 };

static uint8_t plain[LARGEST], escaped[6 * LARGEST], out[6 * LARGEST];
static size_t length, escaped_length;
static int rounds = 51;

/* ---- what is timed */

static void copied(void) {
    memcpy(out, plain, length);
    __asm__ volatile("" : : "r"(out) : "memory");
}

static void wrote(levzhada_answer a, size_t wanted) {
    if (a.number != LEVZHADA_ACCEPTED || a.length != wanted)
        exit(1);
}

static void escape(void) { wrote(levzhada_escape(plain, length, out, escaped_length), escaped_length); }
static void unescape(void) { wrote(levzhada_unescape(escaped, escaped_length, out, length), length); }

static void (*const functions[FUNCTIONS])(void) = {copied, escape, unescape};

/* ---- times */

static double now(void) {
    struct timespec t;
    clock_gettime(CLOCK_MONOTONIC, &t);
    return 1e9 * (double)t.tv_sec + (double)t.tv_nsec;
}

static int ascending(const void *a, const void *b) {
    double x = *(const double *)a, y = *(const double *)b;
    return (x > y) - (x < y);
}

/* A short text is taken so often that a round has as many bytes as one with the longest. */
static void measure(const char *name) {
    static double times[FUNCTIONS][MOST_ROUNDS];
    size_t calls = LARGEST / length;
    for (int round = 0; round < rounds; round++)
        for (int f = 0; f < FUNCTIONS; f++) {
            double start = now();
            for (size_t i = 0; i < calls; i++)
                functions[f]();
            times[f][round] = (now() - start) / (double)calls;
        }
    printf("| %s | %zu | %zu |", name, length, escaped_length);
    for (int f = 0; f < FUNCTIONS; f++) {
        qsort(times[f], (size_t)rounds, sizeof **times, ascending);
        printf(" %.3f | %.3f |", times[f][0] / (double)length, times[f][rounds / 2] / (double)length);
    }
    printf(" %.3f | %.3f |\n", times[2][0] / (double)escaped_length, times[2][rounds / 2] / (double)escaped_length);
}

/* ---- texts */

/* xorshift64 */
static uint64_t state = 88172645463325252u;

static size_t below(size_t n) {
    state ^= state << 13;
    state ^= state >> 7;
    state ^= state << 17;
    return state % n;
}

/* Words, and by chance, one byte of so many, a character that has a name; 0 is never. */
static void make(size_t bytes, size_t every) {
    static const char words[] = "the drum turns, the brake holds; ", named[] = "&\"<>";
    char name[64];
    length = bytes;
    for (size_t i = 0; i < length; i++) {
        int is_named = every != 0 && below(every) == 0;
        plain[i] = (uint8_t)(is_named ? named[below(4)] : words[i % (sizeof words - 1)]);
    }
    escaped_length = levzhada_escape(plain, length, escaped, sizeof escaped).length;
    unescape();
    if (memcmp(out, plain, length) != 0)
        exit(1);
    if (every == 0)
        sprintf(name, "none");
    else
        sprintf(name, "one of %zu", every);
    measure(name);
}

int main(int argc, char **argv) {
    static const size_t every[] = {0, 1000, 200, 50, 20, 8, 3, 1};
    if (argc > 1)
        rounds = atoi(argv[1]);
    if (rounds < 1 || rounds > MOST_ROUNDS)
        return 1;
    puts("| a character with a name | bytes | escaped | memcpy, best | median | escape, best | median | unescape, best | median "
         "| by escaped bytes, best | median |\n|---|---|---|---|---|---|---|---|---|---|---|");
    for (size_t i = 0; i < sizeof every / sizeof *every; i++)
        make(LARGEST, every[i]);
    for (size_t bytes = 16; bytes <= 4096; bytes *= 16)
        for (size_t i = 0; i < sizeof every / sizeof *every; i++)
            if (every[i] <= 50 && every[i] <= bytes)
                make(bytes, every[i]);
    return 0;
}
