/* Extractions with lent buffers of every length that matters, each byte of them looked at (oracle/extractions.py).
   A call: six numbers in 8 columns and LF, an option line, three parts of a sheet. The numbers: the lengths of out and work, of the first
   part and of the second, where the repetitions of the second end, and the length of the sheet. What is wanted: a line with the answer's
   four numbers and how work and out stand; then a text, or its sum where it is long. */
#include "vectors.h"

enum { CALLS = 1123, SHEET = 262144, OUT = 262144, WORK = 65536, EDGE = 64, SHOWN = 200, FILL = 165 };

static uint8_t sheet[SHEET], out_room[OUT + 2 * EDGE], work_room[WORK + 2 * EDGE];
static uint8_t *const out = out_room + EDGE, *const work = work_room + EDGE;

/* ---- a call */

struct call {
    size_t out, work, sheet;
    uint8_t options[LINE];
};

static struct call take_call(void) {
    struct call c;
    c.out = take_number(inputs);
    c.work = take_number(inputs);
    size_t first = take_number(inputs), second = take_number(inputs), end = take_number(inputs);
    c.sheet = take_number(inputs);
    take_line_end(inputs);
    if (c.out > OUT || c.work > WORK || c.sheet > SHEET || end > c.sheet || first > end || second > end - first)
        end_badly("a call is wrong");
    take(inputs, c.options, LINE);
    take(inputs, sheet, first + second);
    for (size_t i = first + second; i < end; i++)
        sheet[i] = sheet[i - second];
    take(inputs, sheet + end, c.sheet - end);
    return c;
}

/* ---- the buffers after it */

/* A buffer that is to hold no text. */
static const char *state(const uint8_t *s, size_t length) {
    return length == 0 ? "empty" : all(s, length, FILL) ? "unchanged" : all(s, length, 0) ? "zero" : "changed";
}

static const char *out_state(levzhada_answer a, size_t length) {
    if (a.number != LEVZHADA_ACCEPTED)
        return state(out, length);
    if (a.length > length)
        return "a text longer than out";
    return all(out + a.length, length - a.length, 0) ? "text and zeros" : "text and other bytes";
}

/* Nothing has changed on either side of a buffer. */
static int is_kept(const uint8_t *room, size_t length) { return all(room, EDGE, FILL) && all(room + EDGE + length, EDGE, FILL); }

/* A number that tells texts apart. */
static size_t sum(const uint8_t *s, size_t length) {
    size_t n = 0;
    for (size_t i = 0; i < length; i++)
        n = (n * 31 + s[i]) % 1000003;
    return n;
}

/* out begins with the text that comes next, of so many bytes. */
static void check_text(const char *what, size_t length) {
    char text[SHOWN], line[64], said[64];
    if (length > OUT)
        end_badly("a text is too long");
    if (length <= SHOWN) {
        take(answers, text, length);
        take_line_end(answers);
        check_bytes(what, out, text, length);
        return;
    }
    take_line(answers, line, sizeof line);
    sprintf(said, "sum %zu ", sum(out, length));
    check_line(what, said, line);
}

int main(void) {
    size_t n;
    open_vectors("tests/vectors/extractions.in", "tests/vectors/extractions.out");
    for (n = 0; more(inputs); n++) {
        struct call c = take_call();
        char what[32], line[256], said[256];
        size_t number, length;
        memset(out_room, FILL, c.out + 2 * EDGE);
        memset(work_room, FILL, c.work + 2 * EDGE);
        levzhada_answer a = levzhada_extract(sheet, c.sheet, c.options, LINE, out, c.out, work, c.work);
        sprintf(what, "call %zu", n);
        sprintf(said, "%zu %zu %zu %zu work %s out %s", a.number, a.second, a.visits, a.length, state(work, c.work), out_state(a, c.out));
        take_line(answers, line, sizeof line);
        check_line(what, said, line);
        check(what, is_kept(out_room, c.out) && is_kept(work_room, c.work), 1);
        if (sscanf(line, "%zu %*u %*u %zu", &number, &length) == 2 && number == LEVZHADA_ACCEPTED)
            check_text(what, length);
        close_vector();
    }
    return close_vectors(n, CALLS);
}
