/* The entry points for other languages, called from C: the answers on a small page. */
#include "check.h"

#include <math.h>

/* <body class="c d"><p id="">a  b </p><!--x--><p>&amp;</p></body> */
static const char page[] =
    "       6       2      27       0\n"
    "       0       1       0       0       4       0       0       1\n"
    "       1       1       0       4       1       0       0       1\n"
    "       2       3       0       0       0       5       5       0\n"
    "       1       8       0       0       0      10       1       0\n"
    "       1       1       0       4       1       0       0       0\n"
    "       2       3       0       0       0      11       1       0\n"
    "      12       5      17       3\n"
    "      20       2      22       0\n"
    "bodypa  b x&classc didno !!";

static const uint8_t *sheet = (const uint8_t *)page;
static const size_t sheet_length = sizeof page - 1;

static void version(void) {
    char numbers[32];
    sprintf(numbers, "%d.%d.%d", LEVZHADA_VERSION_MAJOR, LEVZHADA_VERSION_MINOR, LEVZHADA_VERSION_PATCH);
    check("version", strcmp(numbers, LEVZHADA_VERSION), 0);
}

static void verdicts(void) {
    uint8_t copy[sizeof page];
    check_answer("check", levzhada_check(sheet, sheet_length), LEVZHADA_ACCEPTED, 0, 0, 0);
    check_answer("check of no bytes", levzhada_check(sheet, 0), LEVZHADA_WRONG_LENGTH, 33, 0, 0);
    check_answer("check of all but a byte", levzhada_check(sheet, sheet_length - 1), LEVZHADA_WRONG_LENGTH, sheet_length, 0, 0);
    memcpy(copy, page, sizeof page);
    copy[32] = ' '; /* the header's line end */
    check_answer("check of a line end", levzhada_check(copy, sheet_length), LEVZHADA_WRONG_FORMAT, 0, 0, 0);
    memcpy(copy, page, sizeof page);
    copy[31] = '6'; /* root 6 of 6 rows */
    check_answer("check of a root", levzhada_check(copy, sheet_length), LEVZHADA_WRONG_COUNTS, 0, 0, 0);
    memcpy(copy, page, sizeof page);
    copy[33 + 15] = '2'; /* row 0 of kind 2 */
    check_answer("check of a kind", levzhada_check(copy, sheet_length), LEVZHADA_WRONG_KIND, 1, 0, 0);
    memcpy(copy, page, sizeof page);
    copy[33 + 2 * 65 + 46] = '9'; /* row 2 has its value at 95 */
    check_answer("check of a range", levzhada_check(copy, sheet_length), LEVZHADA_WRONG_RANGE, 3, 0, 0);
    memcpy(copy, page, sizeof page);
    copy[33 + 65 + 7] = '2'; /* row 1 at depth 2 */
    check_answer("check of a depth", levzhada_check(copy, sheet_length), LEVZHADA_WRONG_TREE, 2, 0, 0);
    memcpy(copy, page, sizeof page);
    copy[sheet_length - 27 + 13] = 0xff; /* in "class" */
    check_answer("check of bytes that are no UTF-8", levzhada_check(copy, sheet_length), LEVZHADA_NOT_UTF8, 7, 0, 0);
}

static void rows(void) {
    check_answer("parent of 0", levzhada_parent(sheet, sheet_length, 0), LEVZHADA_ACCEPTED, 0, 0, 0);
    check_answer("parent of 5", levzhada_parent(sheet, sheet_length, 5), LEVZHADA_ACCEPTED, 4, 0, 1);
    check_answer("parent of 6", levzhada_parent(sheet, sheet_length, 6), LEVZHADA_NO_ROW, 6, 0, 0);
    check_answer("first child of 0", levzhada_first_child(sheet, sheet_length, 0), LEVZHADA_ACCEPTED, 1, 0, 1);
    check_answer("first child of 3", levzhada_first_child(sheet, sheet_length, 3), LEVZHADA_ACCEPTED, 0, 0, 0);
    check_answer("next sibling of 1", levzhada_next_sibling(sheet, sheet_length, 1), LEVZHADA_ACCEPTED, 3, 0, 1);
    check_answer("next sibling of 4", levzhada_next_sibling(sheet, sheet_length, 4), LEVZHADA_ACCEPTED, 0, 0, 0);
    check_answer("next sibling in no sheet", levzhada_next_sibling(sheet, 32, 0), LEVZHADA_WRONG_LENGTH, 33, 0, 0);
    check_answer("text length of 0", levzhada_text_length(sheet, sheet_length, 0), LEVZHADA_ACCEPTED, 0, 0, 5);
    check_answer("text length of 2", levzhada_text_length(sheet, sheet_length, 2), LEVZHADA_ACCEPTED, 0, 0, 4);
    check_answer("text length of 3", levzhada_text_length(sheet, sheet_length, 3), LEVZHADA_ACCEPTED, 0, 0, 1);
    check_answer("text length of 7", levzhada_text_length(sheet, sheet_length, 7), LEVZHADA_NO_ROW, 7, 0, 0);
}

static void attributes(void) {
    levzhada_range r = levzhada_attribute(sheet, sheet_length, 0, bytes("class"), 5);
    check_answer("class of 0", r.answer, LEVZHADA_ACCEPTED, 0, 0, 3);
    check("class of 0: present", r.present, 1);
    check("class of 0: at", r.at, 17);
    r = levzhada_attribute(sheet, sheet_length, 1, bytes("id"), 2);
    check_answer("id of 1", r.answer, LEVZHADA_ACCEPTED, 0, 0, 0);
    check("id of 1: present", r.present, 1);
    check("id of 1: at", r.at, 22);
    r = levzhada_attribute(sheet, sheet_length, 1, bytes("class"), 5);
    check_answer("class of 1", r.answer, LEVZHADA_ACCEPTED, 0, 0, 0);
    check("class of 1: present", r.present, 0);
    check("class of 1: at", r.at, 0);
    r = levzhada_attribute(sheet, sheet_length, 6, bytes("id"), 2);
    check_answer("id of 6", r.answer, LEVZHADA_NO_ROW, 6, 0, 0);
    check("id of 6: present", r.present, 0);
}

/* <body>xx..<a>xx..</a></body>, of so many bytes of text and so many of them in the link */
static size_t linked(char *to, int text, int link) {
    int n = sprintf(to,
                    "%8d%8d%8d%8d\n"
                    "       0       1       0       0       4       0       0       0\n"
                    "       1       3       0       0       0       5%8d       0\n"
                    "       1       1       0       4       1       0       0       0\n"
                    "       2       3       0       0       0       5%8d       0\n"
                    "bodya",
                    4, 0, 5 + text, 0, text - link, link);
    memset(to + n, 'x', (size_t)text);
    return (size_t)(n + text);
}

static void check_measure(int text, int link, double ratio, size_t limit, size_t outcome, size_t exceeds, double share) {
    char made[4096], what[64];
    levzhada_link_measure m = levzhada_measure(bytes(made), linked(made, text, link), 0, ratio, limit);
    sprintf(what, "measure of %d, %d by %g, %zu", text, link, ratio, limit);
    check_answer(what, m.answer, LEVZHADA_ACCEPTED, outcome, 0, 0);
    check(what, m.exceeds, exceeds);
    check(what, m.share == share, 1);
}

static void measures(void) {
    levzhada_link_measure m;
    check_measure(100, 20, 0.2, 500, LEVZHADA_MEASURE_SHARE, 0, 20.0 / 100.0);
    check_measure(100, 21, 0.2, 500, LEVZHADA_MEASURE_SHARE, 1, 21.0 / 100.0);
    check_measure(500, 101, 0.2, 500, LEVZHADA_MEASURE_SHARE, 1, 101.0 / 500.0);
    check_measure(501, 501, 0.2, 500, LEVZHADA_MEASURE_TOO_LONG, 0, 0);
    check_measure(501, 501, 0.2, 0, LEVZHADA_MEASURE_SHARE, 1, 1);
    check_measure(800, 480, 0.6, 800, LEVZHADA_MEASURE_SHARE, 0, 480.0 / 800.0);
    check_measure(1500, 901, 0.6, 1500, LEVZHADA_MEASURE_SHARE, 1, 901.0 / 1500.0);
    check_measure(100, 0, 0.2, 0, LEVZHADA_MEASURE_NO_LINKS, 0, 0);
    check_measure(0, 0, 0.2, 0, LEVZHADA_MEASURE_NO_TEXT, 0, 0);
    check_measure(100, 100, NAN, 0, LEVZHADA_MEASURE_SHARE, 0, 1);
    m = levzhada_measure(sheet, sheet_length, 2, 0.2, 0);
    check_answer("measure of a text", m.answer, LEVZHADA_NO_ROW, 2, 0, 0);
    check("measure of a text: share", m.share == 0, 1);
    check_answer("measure of 6", levzhada_measure(sheet, sheet_length, 6, 0.2, 0).answer, LEVZHADA_NO_ROW, 6, 0, 0);
    check_answer("measure in no sheet", levzhada_measure(sheet, 32, 6, 0.2, 0).answer, LEVZHADA_WRONG_LENGTH, 33, 0, 0);
}

static void patterns(void) {
    check_answer("pattern 15, ad", levzhada_matches(15, bytes("ad"), 2), LEVZHADA_ACCEPTED, 1, 0, 0);
    check_answer("pattern 15, ad x", levzhada_matches(15, bytes("ad x"), 4), LEVZHADA_ACCEPTED, 0, 0, 0);
    check_answer("pattern 0, no bytes", levzhada_matches(0, bytes(""), 0), LEVZHADA_ACCEPTED, 0, 0, 0);
    check_answer("pattern 21", levzhada_matches(21, bytes("ad"), 2), LEVZHADA_NO_PATTERN, 21, 0, 0);
}

static void texts(void) {
    uint8_t out[16];
    memset(out, '#', sizeof out);
    check_answer("collapse", levzhada_collapse(bytes(" a \n\tb"), 6, out, 8), LEVZHADA_ACCEPTED, 0, 0, 4);
    check_bytes("collapse", out, " a b\0\0\0\0########", 16);
    memset(out, '#', sizeof out);
    check_answer("collapse, out too short", levzhada_collapse(bytes(" a \n\tb"), 6, out, 3), LEVZHADA_OUT_TOO_SHORT, 4, 0, 0);
    check_bytes("collapse, out too short", out, "################", 16);
    check_answer("escape", levzhada_escape(bytes("a<\"&"), 4, out, 16), LEVZHADA_ACCEPTED, 0, 0, 16);
    check_bytes("escape", out, "a&lt;&quot;&amp;", 16);
    check_answer("escape, out too short", levzhada_escape(bytes("a<\"&"), 4, out, 15), LEVZHADA_OUT_TOO_SHORT, 16, 0, 0);
    memset(out, '#', sizeof out);
    check_answer("unescape, no entity", levzhada_unescape(bytes("&lt;&x;"), 7, out, 0), LEVZHADA_NO_ENTITY, 4, 0, 0);
    check_answer("unescape, out too short", levzhada_unescape(bytes("a&amp;b"), 7, out, 2), LEVZHADA_UNESCAPE_OUT_TOO_SHORT, 3, 0, 0);
    check_bytes("unescape, refused", out, "################", 16);
    check_answer("unescape", levzhada_unescape(bytes("a&lt;&quot;&amp;"), 16, out, 8), LEVZHADA_ACCEPTED, 0, 0, 4);
    check_bytes("unescape", out, "a<\"&\0\0\0\0########", 16);
}

static void visible_texts(void) {
    uint8_t out[24];
    memset(out, '#', sizeof out);
    check_answer("visible text of 0, out too short", levzhada_visible_text(sheet, sheet_length, 0, out, 9),
                 LEVZHADA_VISIBLE_TEXT_OUT_TOO_SHORT, 10, 0, 0);
    check_answer("visible text of 6", levzhada_visible_text(sheet, sheet_length, 6, out, 0), LEVZHADA_NO_ROW, 6, 0, 0);
    check_answer("visible text in no sheet", levzhada_visible_text(sheet, 32, 6, out, 0), LEVZHADA_WRONG_LENGTH, 33, 0, 0);
    check_bytes("visible text, refused", out, "########################", 24);
    check_answer("visible text of 0", levzhada_visible_text(sheet, sheet_length, 0, out, 16), LEVZHADA_ACCEPTED, 0, 0, 10);
    check_bytes("visible text of 0", out, "\n\na b\n\n&\n\n\0\0\0\0\0\0########", 24);
    check_answer("visible text of 1", levzhada_visible_text(sheet, sheet_length, 1, out, 4), LEVZHADA_ACCEPTED, 0, 0, 4);
    check_bytes("visible text of 1", out, "a b ", 4);
    check_answer("visible text of 3", levzhada_visible_text(sheet, sheet_length, 3, out, 0), LEVZHADA_ACCEPTED, 0, 0, 0);
}

int main(void) {
    version();
    verdicts();
    rows();
    attributes();
    measures();
    patterns();
    texts();
    visible_texts();
    return close_checks();
}
