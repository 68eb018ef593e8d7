/* Runs the marker, levzhada_mark, on the calls of standard input (oracle/marks.py has their form) and prints for each a line: the four
   numbers, and each place of the sheet that has another byte now, with `=` and the byte where that is no 1.
   marks --cases: on the cases of standard input (oracle/rust/src/cases.rs), each with noscript off and on, two lines: how many marks are
   new, and the rows below the root that are marked afterwards; then visits, length and FNV-1a of the marked sheet's text, or the two
   numbers of its refusal. */
#include "../include/levzhada.h"

#include <inttypes.h>
#include <stdio.h>
#include <stdlib.h>
#include <string.h>

enum { LINE = 12, EDGE = 64, FILL = 0xA5, HEADER = 33, NODE = 65, COLUMNS = 8 };

static size_t n;

static void fail(const char *what) {
    fflush(stdout);
    fprintf(stderr, "call %zu: %s\n", n, what);
    exit(1);
}

struct buffer {
    uint8_t *at;
    size_t length, room;
};

static void resize(struct buffer *b, size_t length) {
    if (length > b->room || !b->at) {
        free(b->at);
        b->room = length + length / 2 + 1;
        b->at = malloc(b->room);
        if (!b->at)
            abort();
    }
    b->length = length;
}

static void take(void *to, size_t length) {
    if (fread(to, 1, length, stdin) != length)
        fail("the input is cut short");
}

static size_t number(const void *columns) {
    char digits[COLUMNS + 1] = {0};
    memcpy(digits, columns, COLUMNS);
    return strtoul(digits, 0, 10);
}

/* ---- the marker in a room of its own: a byte that is written on either side of the sheet is told */

static struct buffer room;

static levzhada_answer mark(const struct buffer *sheet, const struct buffer *options, size_t noscript) {
    struct buffer line = {0};
    resize(&line, options->length);
    memcpy(line.at, options->at, options->length);
    resize(&room, sheet->length + 2 * EDGE);
    memset(room.at, FILL, room.length);
    memcpy(room.at + EDGE, sheet->at, sheet->length);
    levzhada_answer a = levzhada_mark(room.at + EDGE, sheet->length, line.at, line.length, noscript);
    for (size_t i = 0; i < EDGE; i++)
        if (room.at[i] != FILL || room.at[EDGE + sheet->length + i] != FILL)
            fail("a byte outside of the sheet is changed");
    if (memcmp(line.at, options->at, line.length) != 0)
        fail("the option line is changed");
    free(line.at);
    return a;
}

static void calls(void) {
    struct buffer options = {0}, sheet = {0};
    char head[25];
    for (; fread(head, 1, 25, stdin) == 25; n++) {
        resize(&options, number(head));
        resize(&sheet, number(head + 16));
        take(options.at, options.length);
        take(sheet.at, sheet.length);
        levzhada_answer a = mark(&sheet, &options, number(head + 8));
        printf("%zu %zu %zu %zu", a.number, a.second, a.visits, a.length);
        for (size_t i = 0; i < sheet.length; i++)
            if (room.at[EDGE + i] != sheet.at[i]) {
                printf(" %zu", i);
                if (room.at[EDGE + i] != '1')
                    printf("=%d", room.at[EDGE + i]);
            }
        putchar('\n');
    }
}

/* ---- cases */

static size_t field(const uint8_t *sheet, size_t row, size_t k) { return number(sheet + HEADER + NODE * row + COLUMNS * k); }

/* Marks were set on rows below the root and nothing else has changed. */
static size_t new_marks(const struct buffer *sheet, size_t root, size_t past) {
    size_t count = 0;
    for (size_t i = 0; i < sheet->length; i++)
        if (room.at[EDGE + i] != sheet->at[i]) {
            size_t row = (i - HEADER) / NODE;
            int is_skip = i > HEADER && (i - HEADER) % NODE == 3 * COLUMNS - 1;
            if (!is_skip || row <= root || row >= past || sheet->at[i] != '0' || room.at[EDGE + i] != '1')
                fail("another byte than a skip below the root is changed");
            count++;
        }
    return count;
}

static void print_text(const uint8_t *options, const uint8_t *sheet, size_t length) {
    static struct buffer out, work;
    levzhada_answer a;
    resize(&out, 4096);
    resize(&work, 4096);
    for (;;) {
        a = levzhada_extract(sheet, length, options, LINE, out.at, out.length, work.at, work.length);
        if (a.number == LEVZHADA_WORK_TOO_SHORT)
            resize(&work, a.second);
        else if (a.number == LEVZHADA_OUT_TOO_SHORT)
            resize(&out, a.second);
        else
            break;
    }
    if (a.number != LEVZHADA_ACCEPTED) {
        printf("%zu %zu\n", a.number, a.second);
        return;
    }
    uint64_t sum = 0xcbf29ce484222325;
    for (size_t i = 0; i < a.length; i++)
        sum = (sum ^ out.at[i]) * 0x100000001b3;
    printf("text %zu %zu %016" PRIx64 "\n", a.visits, a.length, sum);
}

static void cases(void) {
    struct buffer options = {0}, sheet = {0};
    char head[9];
    resize(&options, LINE);
    for (; fread(head, 1, 9, stdin) == 9; n++) {
        if (number(head) < LINE + HEADER)
            fail("no case");
        resize(&sheet, number(head) - LINE);
        take(options.at, LINE);
        take(sheet.at, sheet.length);
        for (size_t noscript = 0; noscript < 2; noscript++) {
            levzhada_answer a = mark(&sheet, &options, noscript);
            if (a.number != LEVZHADA_ACCEPTED || a.second || a.visits)
                fail("refused");
            const uint8_t *after = room.at + EDGE;
            size_t nodes = number(sheet.at), root = number(sheet.at + 3 * COLUMNS), past = root + 1;
            while (past < nodes && field(sheet.at, past, 0) > field(sheet.at, root, 0))
                past++;
            if (new_marks(&sheet, root, past) != a.length)
                fail("another number of marks");
            printf("%zu", a.length);
            for (size_t i = root + 1; i < past; i++)
                if (field(after, i, 2) == 1)
                    printf(" %zu", i);
            putchar('\n');
            print_text(options.at, after, sheet.length);
        }
    }
}

int main(int argc, char **argv) {
    if (argc > 1 && strcmp(argv[1], "--cases") == 0)
        cases();
    else
        calls();
    return 0;
}
