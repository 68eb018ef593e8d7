/* Runs the reader on the cases of standard input (oracle/rust/src/cases.rs has their form) and prints its answers as
   document 01's program does. It begins with short buffers and lends what 31 and 32 say is needed, so that these needs are tried
   too, and it looks at both buffers after each call.
   driver --needs: for each case the answers without buffers, then with the work that was needed and no out.
   Built with TEN_DIGITS it is for an archive before 0.4.0, whose option lines have no missing_alt. */
#include <inttypes.h>
#include <stdio.h>
#include <stdlib.h>
#include <string.h>

struct answer {
    uint64_t number, second, visits, length;
};

enum { LINE = 12 };

/* ---- the one place that knows the reader's C functions; stand_in_extract is the Rust behind such a function */
#ifdef STAND_IN
void stand_in_extract(const uint8_t *sheet, size_t sheet_len, const uint8_t *options, size_t options_len, uint8_t *out,
                      size_t out_len, uint8_t *work, size_t work_len, uint64_t *answer, size_t answer_len);
#else
#include "../include/levzhada.h"
#endif

struct answer reader_answer(const uint8_t *options, const uint8_t *sheet, size_t len, uint8_t *out, size_t out_len, uint8_t *work,
                            size_t work_len) {
#ifdef STAND_IN
    uint64_t said[4] = {0};
    stand_in_extract(sheet, len, options, LINE, out, out_len, work, work_len, said, 4);
    return (struct answer){said[0], said[1], said[2], said[3]};
#else
#ifdef TEN_DIGITS
    uint8_t line[LINE - 1];
    memcpy(line, options, LINE - 2);
    line[LINE - 2] = '\n';
    levzhada_answer a = levzhada_extract(sheet, len, line, LINE - 1, out, out_len, work, work_len);
#else
    levzhada_answer a = levzhada_extract(sheet, len, options, LINE, out, out_len, work, work_len);
#endif
    return (struct answer){a.number, a.second, a.visits, a.length};
#endif
}

/* the sheet's verdict alone */
uint64_t reader_check(const uint8_t *sheet, size_t len) {
#ifdef STAND_IN
    return len - len + (sheet == 0);
#else
    return levzhada_check(sheet, len).number;
#endif
}

/* ---- the driver; bench/ links the function above without it */
#ifndef NO_MAIN

#define FILL 0xA5

static void fail(size_t n, const char *what) {
    fflush(stdout);
    fprintf(stderr, "case %zu: %s\n", n, what);
    exit(1);
}

static int all(const uint8_t *s, size_t from, size_t to, uint8_t b) {
    for (size_t i = from; i < to; i++)
        if (s[i] != b)
            return 0;
    return 1;
}

struct buffer {
    uint8_t *at;
    size_t len, room;
};

static void resize(struct buffer *b, size_t len) {
    if (len > b->room) {
        free(b->at);
        b->room = len + len / 2;
        b->at = malloc(b->room ? b->room : 1);
        if (!b->at)
            abort();
    }
    b->len = len;
}

/* One call, and the buffers after it: "After a refusal out is unchanged. Work is unchanged too, except after 32, when it is all
   zero. After a text: work is all zero, out holds the text and zeros behind it." */
static struct answer call(size_t n, const uint8_t *c, size_t len, struct buffer *out, struct buffer *work) {
    memset(out->at, FILL, out->len);
    memset(work->at, FILL, work->len);
    struct answer a = reader_answer(c, c + LINE, len - LINE, out->at, out->len, work->at, work->len);
    if (a.number == 0 && (a.length > out->len || !all(out->at, a.length, out->len, 0)))
        fail(n, "out behind the text is not zero");
    if (a.number != 0 && !all(out->at, 0, out->len, FILL))
        fail(n, "out is changed after a refusal");
    if (a.number != 0 && (a.visits || a.length))
        fail(n, "visits or length of a refusal");
#ifndef STAND_IN
    if (!all(work->at, 0, work->len, a.number == 0 || a.number == 32 ? 0 : FILL))
        fail(n, "work");
#endif
    return a;
}

static void print(struct answer a) {
    printf("%8" PRIu64 "%8" PRIu64 "%8" PRIu64 "%8" PRIu64 "\n", a.number, a.second, a.visits, a.length);
}

int main(int argc, char **argv) {
    int needs = argc > 1 && strcmp(argv[1], "--needs") == 0;
    struct buffer in = {0}, out = {0}, work = {0};
    char head[10] = {0};
    for (size_t n = 0; fread(head, 1, 9, stdin) == 9; n++) {
        resize(&in, strtoul(head, 0, 10));
        if (in.len < LINE || fread(in.at, 1, in.len, stdin) != in.len)
            fail(n, "the case is cut short");
        size_t first = needs ? 0 : 256;
        resize(&out, first);
        resize(&work, first);
        struct answer a = call(n, in.at, in.len, &out, &work);
        if (needs)
            print(a);
        if (a.number == 31) {
            if (a.second <= work.len)
                fail(n, "31 with a need that is met");
            resize(&work, a.second);
            a = call(n, in.at, in.len, &out, &work);
        }
        if (needs)
            print(a);
        if (a.number == 32 && !needs) {
            if (a.second <= out.len)
                fail(n, "32 with a need that is met");
            resize(&out, a.second);
            a = call(n, in.at, in.len, &out, &work);
        }
        if (needs)
            continue;
        print(a);
        if (a.number == 0) {
            fwrite(out.at, 1, a.length, stdout);
            putchar('\n');
        }
    }
    return 0;
}

#endif
