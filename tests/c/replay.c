/* Inputs of the program desk, answered with buffers as long as its own: a sample of the comparison with the Rust that reaches every branch
   of its two files, and inputs with a wrong option line (oracle/pages_sample.sh). An input is an option line and a sheet. What is wanted is
   what the program prints: four numbers in 8 columns, and a line with a text. */
#include "vectors.h"

enum { INPUTS = 4222, ROOM = 16384, FILL = 165 };

static uint8_t input[ROOM], out[ROOM], work[ROOM];

/* out holds the text that comes next, of so many bytes, and zeros behind it. */
static void check_text(const char *what, size_t length) {
    static char text[ROOM];
    if (length > ROOM)
        end_badly("a text is too long");
    take(answers, text, length);
    take_line_end(answers);
    check_bytes(what, out, text, length);
    check(what, all(out + length, ROOM - length, 0), 1);
}

int main(void) {
    size_t n;
    open_vectors("tests/vectors/replay.in", "tests/vectors/replay.out");
    for (n = 0; more(inputs); n++) {
        char what[32], line[64], said[128];
        size_t length = take_input(input, ROOM), at = length < LINE ? length : LINE, number, shown;
        memset(out, FILL, ROOM);
        memset(work, FILL, ROOM);
        levzhada_answer a = levzhada_extract(input + at, length - at, input, length, out, ROOM, work, ROOM);
        sprintf(what, "input %zu", n);
        sprintf(said, "%8zu%8zu%8zu%8zu", a.number, a.second, a.visits, a.length);
        take_line(answers, line, sizeof line);
        check_line(what, said, line);
        if (sscanf(line, "%8zu%*8u%*8u%8zu", &number, &shown) != 2)
            end_badly("an answer is wrong");
        if (number == LEVZHADA_ACCEPTED)
            check_text(what, shown);
        else
            check(what, all(out, ROOM, FILL), 1);
        check(what, all(work, ROOM, number == LEVZHADA_ACCEPTED || number == LEVZHADA_OUT_TOO_SHORT ? 0 : FILL), 1);
        close_vector();
    }
    return close_vectors(n, INPUTS);
}
