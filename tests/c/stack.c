/* How much stack a call takes, held against what the header states. A call runs in a thread whose stack was painted; what it takes
   reaches from the caller's frame to the lowest byte that lost its paint. The sheets are made at random, from names and classes that are
   told apart. */
#include "check.h"

#include <pthread.h>
#include <stdlib.h>

/* ---- what a call takes */

enum { STACK = 1 << 20 };

static const uint64_t paint = 0xA5C35A3CA5C35A3C;
static uint64_t *stack;
static size_t taken;

typedef void call(void);

static void *run(void *made) {
    uint64_t *lowest = stack, *frame = __builtin_frame_address(0);
    (*(call **)made)();
    while (*lowest == paint)
        lowest++;
    taken = (size_t)((uint8_t *)frame - (uint8_t *)lowest);
    return 0;
}

/* The most that was taken so far, by a call among others. */
static void measure(call *c, size_t *most) {
    pthread_attr_t attributes;
    pthread_t thread;
    for (size_t i = 0; i < STACK / 8; i++)
        stack[i] = paint;
    if (pthread_attr_init(&attributes) || pthread_attr_setstack(&attributes, stack, STACK) ||
        pthread_create(&thread, &attributes, run, &c) || pthread_join(thread, 0)) {
        check("a thread", 0, 1);
        return;
    }
    pthread_attr_destroy(&attributes);
    if (taken > *most)
        *most = taken;
}

/* A function that takes a known amount. */
static void takes_100_000(void) {
    volatile uint8_t bytes[100000];
    for (size_t i = 0; i < sizeof bytes; i++)
        bytes[i] = 0;
}

/* ---- sheets */

enum { ROWS = 20000, DEPTH = 500, ROOM = 1 << 24 };

static const char *names[] = {"tr",   "td",     "th",      "ul",    "ol",    "li",    "pre",   "br",      "h1",    "h2",       "h4",
                              "h6",   "p",      "article", "dd",    "dt",    "dl",    "div",   "figure",  "form",  "header",   "footer",
                              "hr",   "main",   "nav",     "a",     "img",   "area",  "input", "button",  "label", "textarea", "section",
                              "span", "b",      "table",   "aside", "time",  "video", "blockquote"};
static const char *keys[] = {"class", "id",   "style", "href",     "alt",    "value",   "placeholder",
                             "type",  "role", "rel",   "itemprop", "hidden", "data-ad", "aria-hidden"};
static const char *values[] = {"",           "wide",           "site-nav-bar",         "main-content",  "post-meta",         "sidebar",
                               "text",       "footer-wrapper", "display: none",        "ad ads",        "l-modal",           "hidden",
                               "comments",   "social-share",   "skip-to-main-content", "banner",        "author",            "checkbox",
                               "next",       "breadcrumb",     " a < b & \"c\" ",      "related-links", "widget newsletter", "true",
                               "entry-body", "search-box",     "global-header"};
static const char *texts[] = {"a",        "two words", "a < b && \"c\" > d ", "\xEE\x80\x80", "\xE2\x88\x92", "\xC2\xB6",
                              "x\n  y\n", " ",         " \n\t ",
                              "a text  that is longer than eight bytes, with blanks "};

enum { NAMES = sizeof names / sizeof *names, KEYS = sizeof keys / sizeof *keys, VALUES = sizeof values / sizeof *values };
enum { TEXTS = sizeof texts / sizeof *texts };

/* xorshift64 */
static uint64_t state = 88172645463325252u;

static size_t below(size_t n) {
    state ^= state << 13;
    state ^= state >> 7;
    state ^= state << 17;
    return state % n;
}

static char *sheet, *lines, pool[4096];
static size_t sheet_length, pool_length, row_count, attribute_count;

/* Where a word stands in the pool, written there once. */
static size_t at(const char *word) {
    char *found = strstr(pool, word);
    if (!found) {
        found = pool + pool_length;
        pool_length += (size_t)sprintf(found, "%s", word);
    }
    return (size_t)(found - pool);
}

static void row(size_t depth, size_t kind, const char *name, const char *value, size_t attributes) {
    sprintf(sheet + 33 + 65 * row_count++, "%8zu%8zu%8d%8zu%8zu%8zu%8zu%8zu\n", depth, kind, 0, at(name), strlen(name), at(value),
            strlen(value), attributes);
}

/* Up to three attributes, class and id most often. */
static size_t attributes_of_a_row(void) {
    size_t count = below(4);
    for (size_t i = 0; i < count; i++) {
        const char *key = keys[below(2) ? below(2) : below(KEYS)], *value = values[below(VALUES)];
        sprintf(lines + 33 * attribute_count++, "%8zu%8zu%8zu%8zu\n", at(key), strlen(key), at(value), strlen(value));
    }
    return count;
}

/* A body and rows below it, so many in all; the greater down is, of 8, the deeper they stand. */
static void make(size_t rows, size_t down) {
    size_t depth = 0, is_element = 1;
    row_count = attribute_count = pool_length = 0;
    pool[0] = 0;
    row(0, 1, "body", "", 0);
    while (row_count < rows) {
        if (is_element && depth < DEPTH && (depth == 0 || below(8) < down))
            depth++;
        else if (depth > 1 && below(8) >= down)
            depth--;
        is_element = below(3) != 0;
        if (is_element) {
            const char *name = names[below(NAMES)];
            size_t count = attributes_of_a_row();
            row(depth, 1, name, "", count);
        } else {
            row(depth, below(10) ? 3 : 8, "", texts[below(TEXTS)], 0);
        }
    }
    char header[34];
    sprintf(header, "%8zu%8zu%8zu%8d\n", row_count, attribute_count, pool_length, 0);
    memcpy(sheet, header, 33);
    memcpy(sheet + 33 + 65 * row_count, lines, 33 * attribute_count);
    sheet_length = 33 + 65 * row_count + 33 * attribute_count;
    memcpy(sheet + sheet_length, pool, pool_length);
    sheet_length += pool_length;
}

/* ---- the calls */

static uint8_t *out, *work;
static char options[LINE];
static size_t asked, refused, accepted, escaped;

static void extract(void) {
    levzhada_answer a = levzhada_extract(bytes(sheet), sheet_length, bytes(options), LINE, out, ROOM, work, ROOM);
    accepted += a.number == LEVZHADA_ACCEPTED;
    refused += a.number != LEVZHADA_ACCEPTED;
}

static void verdict(void) { levzhada_check(bytes(sheet), sheet_length); }
static void parent(void) { levzhada_parent(bytes(sheet), sheet_length, asked); }
static void first_child(void) { levzhada_first_child(bytes(sheet), sheet_length, asked); }
static void next_sibling(void) { levzhada_next_sibling(bytes(sheet), sheet_length, asked); }
static void attribute(void) { levzhada_attribute(bytes(sheet), sheet_length, asked, bytes("class"), 5); }
static void text_length(void) { levzhada_text_length(bytes(sheet), sheet_length, asked); }
static void link_measure(void) { levzhada_measure(bytes(sheet), sheet_length, asked, 0.2, 500); }
static void matches(void) { levzhada_matches(asked % 21, bytes(sheet), sheet_length < 10000 ? sheet_length : 10000); }
static void collapse(void) { levzhada_collapse(bytes(sheet), sheet_length, out, ROOM); }
static void escape(void) { levzhada_escape(bytes(sheet), sheet_length, out, ROOM); }
/* refused, and accepted: work holds the escaped sheet */
static void unescape(void) {
    levzhada_unescape(bytes(sheet), sheet_length, out, ROOM);
    levzhada_unescape(work, escaped, out, ROOM);
}
/* written, and measured alone */
static void visible_text(void) {
    levzhada_visible_text(bytes(sheet), sheet_length, asked, out, ROOM);
    levzhada_visible_text(bytes(sheet), sheet_length, asked, out, 0);
}
/* with alt_texts off */
static void mark(void) { levzhada_mark((uint8_t *)sheet, sheet_length, bytes("10100011000\n"), LINE, 0); }

/* All formattings, main_content off and on, the other options by chance. */
static void extractions(size_t *most) {
    for (int formatting = 0; formatting < 3; formatting++)
        for (int main_content = 0; main_content < 2; main_content++) {
            int length = sprintf(options, "%d%d", formatting, main_content);
            while (length < LINE - 1)
                options[length++] = "01"[below(2)];
            options[LINE - 1] = '\n';
            measure(extract, most);
        }
}

static const struct {
    const char *name;
    call *made;
} others[] = {
    {"levzhada_check", verdict},
    {"levzhada_parent", parent},
    {"levzhada_first_child", first_child},
    {"levzhada_next_sibling", next_sibling},
    {"levzhada_attribute", attribute},
    {"levzhada_text_length", text_length},
    {"levzhada_measure", link_measure},
    {"levzhada_matches", matches},
    {"levzhada_collapse", collapse},
    {"levzhada_escape", escape},
    {"levzhada_unescape", unescape},
    {"levzhada_mark", mark},
    {"levzhada_visible_text", visible_text},
};
enum { OTHERS = sizeof others / sizeof *others };

static void check_bound(const char *name, size_t most, size_t bound) {
    printf("%s: %zu bytes of stack, %zu stated\n", name, most, bound);
    check(name, most <= bound, 1);
}

int main(void) {
    size_t known = 0, small = 0, large = 0, most[OTHERS] = {0};
    stack = aligned_alloc(4096, STACK);
    sheet = malloc(33 + (65 + 3 * 33) * ROWS + sizeof pool);
    lines = malloc(3 * 33 * ROWS + 1);
    out = malloc(ROOM);
    work = malloc(ROOM);
    if (!stack || !sheet || !lines || !out || !work)
        return 1;

    measure(takes_100_000, &known);
    check("100,000 bytes are told", known >= 100000 && known < 102000, 1);

    for (int i = 0; i < 60; i++) {
        make(i % 3 ? 1 + below(256) : 256, 3 + below(3));
        extractions(&small);
    }
    for (int i = 0; i < 20; i++) {
        make(i % 2 ? 257 + below(3000) : 257, 3 + below(3));
        extractions(&large);
    }
    for (size_t down = 3; down < 6; down++) {
        make(ROWS, down);
        check_answer("a sheet of 20,000 rows", levzhada_check(bytes(sheet), sheet_length), LEVZHADA_ACCEPTED, 0, 0, 0);
        extractions(&large);
        escaped = levzhada_escape(bytes(sheet), sheet_length, work, ROOM).length;
        check("a visible text", levzhada_visible_text(bytes(sheet), sheet_length, 0, out, ROOM).number, LEVZHADA_ACCEPTED);
        check_answer("a sheet, escaped", levzhada_unescape(work, escaped, out, ROOM), LEVZHADA_ACCEPTED, 0, 0, sheet_length);
        for (size_t j = 0; j < OTHERS; j++)
            for (int i = 0; i < 5; i++) {
                asked = i ? below(ROWS) : 0;
                measure(others[j].made, &most[j]);
            }
    }
    check("most texts are told", accepted > refused, 1);
    printf("%zu texts, %zu refusals\n", accepted, refused);

    check_bound("levzhada_extract, up to 256 rows", small, LEVZHADA_STACK_SMALL);
    check_bound("levzhada_extract", large, LEVZHADA_STACK);
    for (size_t j = 0; j < OTHERS; j++)
        check_bound(others[j].name, most[j], LEVZHADA_STACK_OTHERS);
    return close_checks();
}
