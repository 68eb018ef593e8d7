/* The largest sheets: 20,000 rows, 60,000 attributes, 4,194,304 bytes of pool, depth 500, and ranges that overlap so that the texts are far
   longer than the pool. Both buffers are looked at byte by byte. */
#include "check.h"

#include <stdlib.h>

enum { ROWS = 20000, ATTRIBUTES = 60000, POOL = 4194304 };

#define STANDING "10110011000\n"
#define OFF "00110011000\n"
#define MAIN "11110011000\n"

/* ---- a sheet that grows */

static char *sheet, *lines;
static size_t rows, attributes;

static char *line(char *at, int count, const size_t *numbers) {
    for (int i = 0; i < count; i++)
        at += sprintf(at, "%8zu", numbers[i]);
    *at = '\n';
    return at + 1;
}

static void row(size_t depth, size_t kind, size_t name_at, size_t name_length, size_t value_at, size_t value_length, size_t count) {
    size_t numbers[] = {depth, kind, 0, name_at, name_length, value_at, value_length, count};
    line(sheet + 33 + 65 * rows++, 8, numbers);
}

static void attribute(size_t name_at, size_t name_length, size_t value_at, size_t value_length) {
    size_t numbers[] = {name_at, name_length, value_at, value_length};
    line(lines + 33 * attributes++, 4, numbers);
}

/* The pool: "bodypclassid", and x to its end. */
enum { BODY = 0, P = 4, CLASS = 5, ID = 10, TEXT = 12 };

static size_t finished(size_t pool) {
    size_t numbers[] = {rows, attributes, pool, 0}, at = 33 + 65 * rows;
    line(sheet, 4, numbers);
    memcpy(sheet + at, lines, 33 * attributes);
    at += 33 * attributes;
    memset(sheet + at, 'x', pool);
    memcpy(sheet + at, "bodypclassid", 12);
    return at + pool;
}

static void begin(void) {
    rows = attributes = 0;
    row(0, 1, BODY, 4, 0, 0, 0);
}

/* ---- a call */

static uint8_t *out, *work;

static int all(const uint8_t *s, size_t from, size_t to, uint8_t b) {
    for (size_t i = from; i < to; i++)
        if (s[i] != b)
            return 0;
    return 1;
}

static levzhada_answer extracted(const char *what, size_t length, const char *options, size_t out_length, size_t work_length) {
    memset(out, '#', out_length);
    memset(work, '#', work_length);
    levzhada_answer a = levzhada_extract(bytes(sheet), length, bytes(options), LINE, out, out_length, work, work_length);
    check(what, all(work, 0, work_length, a.number == LEVZHADA_ACCEPTED || a.number == LEVZHADA_OUT_TOO_SHORT ? 0 : '#'), 1);
    check(what, a.number == LEVZHADA_ACCEPTED ? all(out, a.length, out_length, 0) : all(out, 0, out_length, '#'), 1);
    return a;
}

/* At the needs and one byte short of each. */
static void check_needs(const char *what, size_t length, const char *options, size_t out_need, size_t work_need, size_t visits,
                        size_t text_length) {
    check_answer(what, extracted(what, length, options, out_need, work_need), LEVZHADA_ACCEPTED, 0, visits, text_length);
    check_answer(what, extracted(what, length, options, out_need, work_need - 1), LEVZHADA_WORK_TOO_SHORT, work_need, 0, 0);
    check_answer(what, extracted(what, length, options, out_need - 1, work_need), LEVZHADA_OUT_TOO_SHORT, out_need, 0, 0);
}

int main(void) {
    size_t i, d, length;
    sheet = malloc(33 + 65 * ROWS + 33 * ATTRIBUTES + POOL);
    lines = malloc(33 * ATTRIBUTES);
    out = malloc(30000000);
    work = malloc(10000000);
    if (!sheet || !lines || !out || !work)
        return 1;

    /* paragraphs of two bytes, as many as there may be rows */
    begin();
    for (i = 0; i < 9999; i++) {
        row(1, 1, P, 1, 0, 0, 0);
        row(2, 3, 0, 0, TEXT + i, 2, 0);
    }
    row(1, 3, 0, 0, 0, 0, 0);
    check("rows", rows, ROWS);
    length = finished(POOL);
    check_needs("20,000 rows", length, STANDING, 9999 * 2 + 9998 * 2, 2, 2 + 9999 * 3 + 1, 9999 * 2 + 9998 * 2);

    /* the texts of all rows in one entry */
    begin();
    for (i = 1; i < ROWS; i++)
        row(1, 3, 0, 0, i, 10000, 0);
    length = finished(POOL);
    check_answer("one entry", extracted("one entry", length, OFF, 1000, 1000), LEVZHADA_WORK_TOO_SHORT, (size_t)(ROWS - 1) * 10000, 0, 0);

    /* 200 paragraphs that show the same 100,000 bytes */
    begin();
    for (i = 0; i < 200; i++) {
        row(1, 1, P, 1, 0, 0, 0);
        row(2, 3, 0, 0, TEXT + i, 100000, 0);
    }
    length = finished(100300);
    check_needs("overlapping ranges", length, STANDING, 200 * 100000 + 199 * 2, 100000, 2 + 200 * 3, 200 * 100000 + 199 * 2);

    /* depth 500, forty times */
    begin();
    for (i = 0; i < 39; i++) {
        for (d = 1; d < 500; d++)
            row(d, 1, P, 1, 0, 0, 0);
        row(500, 3, 0, 0, TEXT, 1, 0);
    }
    length = finished(100);
    check_needs("depth 500", length, STANDING, 39 + 38 * 2, 1, 2 + 39 * (499 * 2 + 1), 39 + 38 * 2);

    /* 60,000 attributes; with main_content the longest class and id count, whatever row has them */
    begin();
    row(1, 1, P, 1, 0, 0, ATTRIBUTES);
    for (i = 0; i < ATTRIBUTES - 2; i++)
        attribute(P, 1, TEXT, 5);
    attribute(CLASS, 5, TEXT, 1000000);
    attribute(ID, 2, TEXT, 2000000);
    row(2, 3, 0, 0, TEXT, 3, 0);
    length = finished(POOL);
    check_needs("60,000 attributes", length, MAIN, 3, 1000000 + 1 + 2000000, 5, 3);

    /* one row and one attribute too many */
    begin();
    length = finished(12);
    memcpy(sheet, "   20001", 8);
    check_answer("20,001 rows", extracted("20,001 rows", length, MAIN, 10, 10), LEVZHADA_WRONG_COUNTS, 0, 0, 0);
    memcpy(sheet, "       1   60001", 16);
    check_answer("60,001 attributes", extracted("60,001 attributes", length, MAIN, 10, 10), LEVZHADA_WRONG_COUNTS, 0, 0, 0);
    return close_checks();
}
