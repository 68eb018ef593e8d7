/* The time of the marker beside that of the verdict, in ns a row: the medians of rounds in which both take turns.
   Use: gcc -O2 -I include bench/marks.c target/staticlib/liblevzhada.a -o target/marks && target/marks [CASES]
   CASES: pages of a file too, all of one option line together
   (/usr/bin/python3 oracle/pages.py real 200 | python3 oracle/marks.py unmarked). */
#include "levzhada.h"

#include <stdio.h>
#include <stdlib.h>
#include <string.h>
#include <time.h>

enum { NODES = 20000, ROUNDS = 101, LINE = 12, MOST_PAGES = 20000, HEADER = 33, NODE = 65 };

#define STANDING "10110011000\n"
#define NO_ALT "10100011000\n"

struct page {
    uint8_t *sheet, *before;
    size_t length;
    char options[LINE];
};

static struct page pages[MOST_PAGES];
static size_t count;

static void *space(size_t length) {
    void *p = malloc(length + 1);
    if (!p)
        exit(1);
    return p;
}

static struct page *add(const void *sheet, size_t length, const char *options) {
    if (count == MOST_PAGES)
        exit(1);
    struct page *p = &pages[count++];
    p->sheet = space(length);
    p->before = space(length);
    p->length = length;
    memcpy(p->before, sheet, length);
    memcpy(p->options, options, LINE);
    return p;
}

static size_t number(const void *columns) {
    char digits[9] = {0};
    memcpy(digits, columns, 8);
    return strtoul(digits, 0, 10);
}

/* ---- times */

static double now(void) {
    struct timespec t;
    clock_gettime(CLOCK_MONOTONIC, &t);
    return 1e9 * (double)t.tv_sec + (double)t.tv_nsec;
}

static int ascending(const void *a, const void *b) {
    double x = *(const double *)a, y = *(const double *)b;
    return (x > y) - (x < y);
}

static double median(double *times) {
    qsort(times, ROUNDS, sizeof *times, ascending);
    return times[ROUNDS / 2];
}

static size_t marks;

static double checked(void) {
    double start = now();
    for (size_t i = 0; i < count; i++)
        if (levzhada_check(pages[i].sheet, pages[i].length).number != LEVZHADA_ACCEPTED)
            exit(1);
    return now() - start;
}

static double marked(void) {
    double start = now();
    marks = 0;
    for (size_t i = 0; i < count; i++) {
        levzhada_answer a = levzhada_mark(pages[i].sheet, pages[i].length, (const uint8_t *)pages[i].options, LINE, 0);
        if (a.number != LEVZHADA_ACCEPTED)
            exit(1);
        marks += a.length;
    }
    return now() - start;
}

/* The verdict, the marker, the marker again where nothing is left to mark. */
static void measure(const char *name) {
    static double verdict[ROUNDS], first[ROUNDS], again[ROUNDS];
    size_t rows = 0, bytes = 0, set = 0;
    for (size_t i = 0; i < count; i++) {
        rows += number(pages[i].before);
        bytes += pages[i].length;
    }
    for (int k = 0; k < ROUNDS; k++) {
        for (size_t i = 0; i < count; i++)
            memcpy(pages[i].sheet, pages[i].before, pages[i].length);
        verdict[k] = checked();
        first[k] = marked();
        set = marks;
        again[k] = marked();
        if (marks != 0)
            exit(1);
    }
    double v = median(verdict) / (double)rows, f = median(first) / (double)rows, a = median(again) / (double)rows;
    printf("%-34s%8zu%10zu%8zu%10.1f%10.1f%10.1f%8.2f%8.2f\n", name, rows, bytes, set, v, f, a, f / v, a / v);
    while (count > 0) {
        free(pages[--count].sheet);
        free(pages[count].before);
    }
}

/* ---- made sheets */

static char made[HEADER + NODE * NODES + 4096], pool[4096];
static size_t pool_length;

static size_t at(const char *word) {
    char *found = strstr(pool, word);
    if (!found) {
        found = pool + pool_length;
        pool_length += (size_t)sprintf(found, "%s", word);
    }
    return (size_t)(found - pool);
}

static void row(size_t i, size_t depth, const char *name, const char *value) {
    sprintf(made + HEADER + NODE * i, "%8zu%8d%8d%8zu%8zu%8zu%8zu%8d\n", depth, *name ? 1 : 3, 0, at(name), strlen(name), at(value),
            strlen(value), 0);
}

/* Elements with a text below each; of a hundred elements so many have a name that is taken out. */
static void make(const char *name, const char *options, size_t listed) {
    static const char *usual[] = {"div", "p", "a", "span", "li", "td", "tr", "h2", "em", "code", "section", "article", "blockquote"};
    static const char *out[] = {"script", "style", "noscript", "input", "button", "label", "option", "textarea", "select", "iframe"};
    char header[HEADER + 1];
    pool_length = 0;
    pool[0] = 0;
    row(0, 0, "body", "");
    for (size_t i = 1; i < NODES; i++) {
        size_t k = i / 2;
        if (i % 2)
            row(i, 1 + k % 5, k * 37 % 100 < listed ? out[k % 10] : usual[k % 13], "");
        else
            row(i, 1 + (k - 1) % 5 + 1, "", "a text of some words");
    }
    sprintf(header, "%8d%8d%8zu%8d\n", NODES, 0, pool_length, 0);
    memcpy(made, header, HEADER);
    memcpy(made + HEADER + NODE * NODES, pool, pool_length);
    add(made, HEADER + NODE * NODES + pool_length, options);
    measure(name);
}

/* Elements alone, one beside the other and of one name. */
static void make_of(const char *label, const char *name, const char *options) {
    char header[HEADER + 1];
    pool_length = 0;
    pool[0] = 0;
    for (size_t i = 0; i < NODES; i++)
        row(i, i > 0, i ? name : "body", "");
    sprintf(header, "%8d%8d%8zu%8d\n", NODES, 0, pool_length, 0);
    memcpy(made, header, HEADER);
    memcpy(made + HEADER + NODE * NODES, pool, pool_length);
    add(made, HEADER + NODE * NODES + pool_length, options);
    measure(label);
}

/* ---- pages of a file */

static void read_pages(const char *file, const char *options) {
    char head[9], name[64];
    uint8_t *room = space(8000000);
    FILE *f = fopen(file, "rb");
    if (!f)
        exit(1);
    while (fread(head, 1, 9, f) == 9) {
        size_t length = number(head);
        if (length < LINE || length > 8000000 || fread(room, 1, length, f) != length)
            exit(1);
        if (memcmp(room, options, LINE) == 0)
            add(room + LINE, length - LINE, options);
    }
    fclose(f);
    free(room);
    sprintf(name, "%zu pages, %.11s", count, options);
    if (count > 0)
        measure(name);
}

int main(int argc, char **argv) {
    printf("%-34s%8s%10s%8s%10s%10s%10s%8s%8s\n", "sheet", "rows", "bytes", "marks", "verdict", "mark", "again", "ratio", "again");
    make("elements and texts, 5 % listed", STANDING, 5);
    make("elements and texts, 50 % listed", STANDING, 50);
    make("elements and texts, none listed", STANDING, 0);
    make_of("p alone", "p", STANDING);
    make_of("script alone", "script", STANDING);
    make_of("figcaption alone, alt_texts off", "figcaption", NO_ALT);
    make_of("blockquote alone", "blockquote", NO_ALT);
    if (argc > 1)
        for (const char *line = "10110011000\n00110011000\n20110011000\n11110011000\n11000000000\n"; *line; line += LINE)
            read_pages(argv[1], line);
    return 0;
}
