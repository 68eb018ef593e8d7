/* Marks by name: the pages of change request 1 with their marks and texts, each refusal, the largest sheets, and calls whose answers
   oracle/marks.py made. After each call every byte of the sheet is looked at, and the bytes on both sides of it. */
#include "vectors.h"

enum { EDGE = 64, FILL = 165, ROOM = 40000, NODES = 20000, SHEETS = 110, CALLS = 367 };
enum { LARGEST = 33 + 65 * NODES + 16 };

#define STANDING "10110011000\n"
#define OFF "00110011000\n"
#define OFF_NO_ALT "00100011000\n"
#define OFF_FIELDS "00110111000\n"

static uint8_t room[LARGEST + 2 * EDGE], before[LARGEST];
static uint8_t *const sheet = room + EDGE;

/* ---- a call, and the sheet after it */

/* What the sheet must be is first what it is before the call. */
static levzhada_answer marked(const char *what, size_t length, const void *options, size_t options_length, size_t noscript) {
    memcpy(before, sheet, length);
    memset(room, FILL, EDGE);
    memset(sheet + length, FILL, EDGE);
    levzhada_answer a = levzhada_mark(sheet, length, options, options_length, noscript);
    check(what, all(room, EDGE, FILL) && all(sheet + length, EDGE, FILL), 1);
    return a;
}

static void check_sheet(const char *what, size_t length) { check(what, memcmp(sheet, before, length) == 0, 1); }

/* Where a row's skip has its last digit. */
static size_t skip_of(size_t row) { return 33 + 65 * row + 3 * 8 - 1; }

/* So it is refused (or accepted, with the number 0), and unchanged. */
static void check_refused(const char *what, size_t length, const char *options, size_t options_length, size_t number, size_t second) {
    check_answer(what, marked(what, length, options, options_length, 0), number, second, 0, 0);
    check_sheet(what, length);
}

/* ---- the pages of the change request */

/* <script>a</script><p><noscript>n</noscript><img alt=i><label><input value=v></label>t</p><SCRIPT>S</SCRIPT><!--script-->style */
static const char page[] = "      14       2      57       0\n"
                           "       0       1       0       0       4       0       0       0\n"
                           "       1       1       0       4       6       0       0       0\n"
                           "       2       3       0       0       0      10       1       0\n"
                           "       1       1       0      11       1       0       0       0\n"
                           "       2       1       0      12       8       0       0       0\n"
                           "       3       3       0       0       0      20       1       0\n"
                           "       2       1       0      21       3       0       0       1\n"
                           "       2       1       0      28       5       0       0       0\n"
                           "       3       1       0      33       5       0       0       1\n"
                           "       2       3       0       0       0      44       1       0\n"
                           "       1       1       0      45       6       0       0       0\n"
                           "       2       3       0       0       0      51       1       0\n"
                           "       1       8       0       0       0       4       6       0\n"
                           "       1       3       0       0       0      52       5       0\n"
                           "      24       3      27       1\n"
                           "      38       5      43       1\n"
                           "bodyscriptapnoscriptnimgaltilabelinputvaluevtSCRIPTSstyle";
enum { PAGE = sizeof page - 1, ROOT = 31 };

/* Marked: the rows, a letter each from a for row 0 on. */
static const struct {
    const char *options, *marked, *text, *text_after;
    size_t noscript;
    char root;
} examples[] = {
    {OFF, "behi", "a nit Sstyle", "it Sstyle", 0, '0'},
    {OFF, "bhi", "a nit Sstyle", "nit Sstyle", 1, '0'},
    {OFF_NO_ALT, "beghi", "a nt Sstyle", "t Sstyle", 0, '0'},
    {OFF_FIELDS, "be", "a ni[ v ] t Sstyle", "i[ v ] t Sstyle", 0, '0'},
    {OFF, "ehi", "nit", "it", 0, '3'},
    {OFF, "", "a", "a", 0, '1'},
    {OFF, "i", "", "", 0, '7'},
    {STANDING, "behi", "a\n\nnit\n\nSstyle", "it\n\nSstyle", 0, '0'},
};
enum { EXAMPLES = sizeof examples / sizeof *examples };

static void check_text(const char *what, const char *options, const char *text) {
    uint8_t out[64] = {0}, work[64] = {0};
    levzhada_answer a = levzhada_extract(sheet, PAGE, bytes(options), LINE, out, sizeof out, work, sizeof work);
    check(what, a.number, LEVZHADA_ACCEPTED);
    check_line(what, (const char *)out, text);
}

static void pages(void) {
    for (size_t k = 0; k < EXAMPLES; k++) {
        char what[32];
        size_t marks = strlen(examples[k].marked);
        sprintf(what, "page %zu", k);
        memcpy(sheet, page, PAGE);
        sheet[ROOT] = (uint8_t)examples[k].root;
        check_text(what, examples[k].options, examples[k].text);
        check_answer(what, marked(what, PAGE, examples[k].options, LINE, examples[k].noscript), LEVZHADA_ACCEPTED, 0, 0, marks);
        for (size_t i = 0; i < marks; i++)
            before[skip_of((size_t)(examples[k].marked[i] - 'a'))] = '1';
        check_sheet(what, PAGE);
        check_text(what, examples[k].options, examples[k].text_after);
        check_answer(what, levzhada_check(sheet, PAGE), LEVZHADA_ACCEPTED, 0, 0, 0);
        check_answer(what, marked(what, PAGE, examples[k].options, LINE, examples[k].noscript), LEVZHADA_ACCEPTED, 0, 0, 0);
        check_sheet(what, PAGE);
    }
    /* noscript adds what it kept, alt_texts too, and nothing is taken back */
    memcpy(sheet, page, PAGE);
    check_answer("noscript on", marked("noscript on", PAGE, OFF, LINE, 1), LEVZHADA_ACCEPTED, 0, 0, 3);
    check_answer("noscript off", marked("noscript off", PAGE, OFF, LINE, 0), LEVZHADA_ACCEPTED, 0, 0, 1);
    check_answer("alt_texts off", marked("alt_texts off", PAGE, OFF_NO_ALT, LINE, 1), LEVZHADA_ACCEPTED, 0, 0, 1);
    check_answer("form_fields on", marked("form_fields on", PAGE, OFF_FIELDS, LINE, 1), LEVZHADA_ACCEPTED, 0, 0, 0);
    check_text("all marks", OFF_FIELDS, "t Sstyle");
}

/* Any number but 0 is on: all of its bits are looked at. */
static void noscripts(void) {
    for (size_t bit = 0; bit < 8 * sizeof(size_t); bit++) {
        memcpy(sheet, page, PAGE);
        check_answer("a bit of noscript", marked("a bit of noscript", PAGE, OFF, LINE, (size_t)1 << bit), LEVZHADA_ACCEPTED, 0, 0, 3);
    }
    memcpy(sheet, page, PAGE);
    check_answer("all bits of noscript", marked("all bits of noscript", PAGE, OFF, LINE, SIZE_MAX), LEVZHADA_ACCEPTED, 0, 0, 3);
}

/* ---- refusals */

/* No LF, CR in its place, ten digits, twelve, and digits that are none of a formatting or a flag. */
static const char *const wrong_lines[] = {"10110011000",    "10110011000\r", "1011001100\n",  "1011001100\n\n",
                                          "101100110000\n", "30110011000\n", "10110011020\n", "10110011002\n"};
enum { WRONG_LINES = sizeof wrong_lines / sizeof *wrong_lines };

/* The sheets of tests/c/verdicts.c, of which none has a listed name: the same numbers, after 33, and nothing changes. */
static size_t verdicts(void) {
    size_t n;
    open_vectors("tests/vectors/verdicts.in", "tests/vectors/verdicts.out");
    for (n = 0; more(inputs); n++) {
        char what[32], line[64];
        size_t length = take_input(sheet, ROOM), number, second;
        take_line(answers, line, sizeof line);
        if (sscanf(line, "%zu %zu", &number, &second) != 2)
            end_badly("a number is wrong");
        sprintf(what, "verdict %zu", n);
        for (size_t k = 0; k < WRONG_LINES; k++)
            check_refused(what, length, wrong_lines[k], strlen(wrong_lines[k]), LEVZHADA_WRONG_OPTIONS, 0);
        check_refused(what, length, STANDING, LINE, number, second);
        close_vector();
    }
    return n;
}

/* ---- the largest sheets */

static const char pool[] = "bodyscriptnoscrp"; /* script at 4, p at the end */
enum { POOL = sizeof pool - 1 };

static void put_line(uint8_t *at, int count, const size_t *numbers) {
    char line[72];
    for (int i = 0; i < count; i++)
        sprintf(line + 8 * i, "%8zu", numbers[i]);
    line[8 * count] = '\n';
    memcpy(at, line, 8 * (size_t)count + 1);
}

static void put_row(size_t row, size_t depth, int is_script) {
    size_t numbers[] = {depth, 1, 0, row == 0 ? 0 : is_script ? 4 : POOL - 1, row == 0 ? 4 : is_script ? 6 : 1, 0, 0, 0};
    put_line(sheet + 33 + 65 * row, 8, numbers);
}

static size_t finished(size_t rows, size_t root) {
    size_t numbers[] = {rows, 0, POOL, root};
    put_line(sheet, 4, numbers);
    memcpy(sheet + 33 + 65 * rows, pool, POOL);
    return 33 + 65 * rows + POOL;
}

/* Marks, from the root's first row below it on, each row that is a script and that stands before the end. */
static void check_scripts(const char *what, size_t length, size_t from, size_t end, size_t every) {
    size_t marks = 0;
    levzhada_answer a = marked(what, length, STANDING, LINE, 0);
    for (size_t i = from; i < end; i++)
        if (i % every == 0) {
            before[skip_of(i)] = '1';
            marks++;
        }
    check_answer(what, a, LEVZHADA_ACCEPTED, 0, 0, marks);
    check_sheet(what, length);
    check_answer(what, marked(what, length, STANDING, LINE, 0), LEVZHADA_ACCEPTED, 0, 0, 0);
    check_sheet(what, length);
}

static void largest(void) {
    size_t i, length;
    /* one beside the other: all of them scripts, every second, none */
    for (size_t every = 1; every <= NODES; every = every == 1 ? 2 : every == 2 ? NODES : NODES + 1) {
        for (i = 0; i < NODES; i++)
            put_row(i, i > 0, i % every == 0);
        length = finished(NODES, 0);
        check_scripts("20,000 rows", length, 1, NODES, every);
    }
    /* the last row is the root, or the only row below it */
    for (i = 0; i < NODES; i++)
        put_row(i, i == NODES - 1 ? 2 : i > 0, 1);
    length = finished(NODES, NODES - 1);
    check_scripts("the last row as root", length, NODES, NODES, 1);
    length = finished(NODES, NODES - 2);
    check_scripts("the last row below the root", length, NODES - 1, NODES, 1);
    /* depth 500, forty times: from the second row at depth 1 on, and from a row at depth 499 */
    for (i = 0; i < NODES; i++)
        put_row(i, i == 0 ? 0 : (i - 1) % 500 + 1, 1);
    length = finished(NODES, 501);
    check_scripts("depth 500", length, 502, 1001, 1);
    length = finished(NODES, 499);
    check_scripts("below depth 499", length, 500, 501, 1);
    length = finished(NODES, 500);
    check_scripts("at depth 500", length, 501, 501, 1);
    /* a fault in the last row, behind so many that are to be marked */
    length = finished(NODES, 0);
    sheet[skip_of(NODES - 1)] = '2';
    check_refused("a skip in the last row", length, STANDING, LINE, LEVZHADA_WRONG_KIND, NODES);
    sheet[skip_of(NODES - 1)] = '1';
    sheet[length - POOL - 1] = ' ';
    check_refused("the last line's end", length, STANDING, LINE, LEVZHADA_WRONG_FORMAT, NODES);
    memcpy(sheet, "   20001", 8);
    check_refused("20,001 rows", length, STANDING, LINE, LEVZHADA_WRONG_COUNTS, 0);
}

/* ---- calls with their answers */

/* A 1 at each place that the answer's line has behind the four numbers. */
static void put_places(char *at) {
    while (*at) {
        size_t place = strtoul(at, &at, 10);
        if (place >= ROOM)
            end_badly("a place is wrong");
        before[place] = '1';
    }
}

static void check_call(size_t n) {
    static char line[8192];
    uint8_t options[1024];
    char what[32], said[128];
    size_t options_length = take_number(inputs), noscript = take_number(inputs), length = take_number(inputs), given = 0;
    take_line_end(inputs);
    if (options_length > sizeof options || length > ROOM)
        end_badly("a call is wrong");
    take(inputs, options, options_length);
    take(inputs, sheet, length);
    take_line(answers, line, sizeof line);
    sprintf(what, "call %zu", n);
    levzhada_answer a = marked(what, length, options, options_length, noscript);
    for (int spaces = 0; line[given] && (line[given] != ' ' || ++spaces < 4); given++)
        ;
    put_places(line + given);
    line[given] = 0;
    sprintf(said, "%zu %zu %zu %zu", a.number, a.second, a.visits, a.length);
    check_line(what, said, line);
    check_sheet(what, length);
}

static size_t calls(void) {
    size_t n;
    open_vectors("tests/vectors/marks.in", "tests/vectors/marks.out");
    for (n = 0; more(inputs); n++) {
        check_call(n);
        close_vector();
    }
    return n;
}

int main(void) {
    size_t sheets = verdicts(), made = calls();
    check("verdicts: sheets", sheets, SHEETS);
    pages();
    noscripts();
    largest();
    return close_vectors(made, CALLS);
}
