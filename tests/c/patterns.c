/* The 21 patterns on strings, against the Rust's own regex crate (oracle/pattern_vectors.sh). A string is a line, with the byte 1 for LF
   inside it. The lines that are wanted: number and second number of pattern 21 on the first string; then for each string six hexadecimal
   digits, bit p for pattern p. */
#include "vectors.h"

enum { STRINGS = 12084, PATTERNS = 21 };

/* The patterns that are found; all bits where an answer is neither yes nor no. */
static size_t found(const uint8_t *text, size_t length) {
    size_t set = 0;
    for (size_t pattern = 0; pattern < PATTERNS; pattern++) {
        levzhada_answer a = levzhada_matches(pattern, text, length);
        if (a.number != LEVZHADA_ACCEPTED || a.second > 1 || a.visits != 0 || a.length != 0)
            return SIZE_MAX;
        set |= a.second << pattern;
    }
    return set;
}

static void no_pattern(const uint8_t *text, size_t length) {
    char line[64], said[64];
    levzhada_answer a = levzhada_matches(PATTERNS, text, length);
    sprintf(said, "%zu %zu", a.number, a.second);
    take_line(answers, line, sizeof line);
    check_line("pattern 21", said, line);
    check("pattern 21", a.visits | a.length, 0);
}

int main(void) {
    size_t n;
    open_vectors("tests/vectors/patterns.in", "tests/vectors/patterns.out");
    for (n = 0; more(inputs); n++) {
        char text[64], what[32], line[64], said[64];
        size_t length = take_line(inputs, text, sizeof text);
        for (size_t i = 0; i < length; i++)
            if (text[i] == 1)
                text[i] = '\n';
        if (n == 0)
            no_pattern(bytes(text), length);
        sprintf(what, "string %zu", n);
        sprintf(said, "%06zx", found(bytes(text), length));
        take_line(answers, line, sizeof line);
        check_line(what, said, line);
        close_vector();
    }
    return close_vectors(n, STRINGS);
}
