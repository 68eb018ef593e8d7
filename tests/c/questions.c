/* The single-row questions on every row of a page, and on one row past them (oracle/tree_questions.py). A line has the answers for a row:
   number, second number and length of each; of an attribute number, start and length, or none. */
#include "vectors.h"

enum { ROWS = 19, ROOM = 16384 };

static uint8_t sheet[ROOM];
static size_t length;

/* What is said of a row; what is not 0 of the numbers that are not told. */
static char said[512];
static size_t others;

static void say(size_t first, size_t second, size_t third) {
    sprintf(said + strlen(said), "%zu %zu %zu, ", first, second, third);
}

static void relative(levzhada_answer a) {
    say(a.number, a.second, a.length);
    others |= a.visits;
}

static void attribute(size_t row, const char *name) {
    levzhada_range r = levzhada_attribute(sheet, length, row, bytes(name), strlen(name));
    int accepted = r.answer.number == LEVZHADA_ACCEPTED;
    if (accepted && !r.present)
        strcat(said, "none, ");
    else
        say(r.answer.number, accepted ? r.at : r.answer.second, r.answer.length);
    others |= r.answer.visits | (accepted ? r.answer.second : r.present) | (r.present ? r.present - 1 : r.at | r.answer.length);
}

int main(void) {
    open_vectors("tests/vectors/questions.in", "tests/vectors/questions.out");
    length = fread(sheet, 1, ROOM, inputs);
    for (size_t row = 0; row <= ROWS; row++) {
        char what[32], line[256];
        said[0] = 0;
        relative(levzhada_parent(sheet, length, row));
        relative(levzhada_first_child(sheet, length, row));
        relative(levzhada_next_sibling(sheet, length, row));
        attribute(row, "class");
        attribute(row, "id");
        sprintf(what, "row %zu", row);
        take_line(answers, line, sizeof line);
        check_line(what, said, line);
    }
    check("numbers that are not told", others, 0);
    return close_vectors(strtoul((char *)sheet, 0, 10), ROWS);
}
