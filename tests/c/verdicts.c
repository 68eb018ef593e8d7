/* The verdict on sheets that are damaged in each way that docs/SHEET.md names (oracle/sheet_verdicts.py). A line for each: number and
   second number. */
#include "vectors.h"

enum { SHEETS = 110, ROOM = 40000 };

int main(void) {
    static uint8_t sheet[ROOM];
    size_t n;
    open_vectors("tests/vectors/verdicts.in", "tests/vectors/verdicts.out");
    for (n = 0; more(inputs); n++) {
        char what[32], line[64], said[64];
        size_t length = take_input(sheet, ROOM);
        levzhada_answer a = levzhada_check(sheet, length);
        sprintf(what, "sheet %zu", n);
        sprintf(said, "%zu %zu", a.number, a.second);
        take_line(answers, line, sizeof line);
        check_line(what, said, line);
        check(what, a.visits | a.length, 0);
        close_vector();
    }
    return close_vectors(n, SHEETS);
}
