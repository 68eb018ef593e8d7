/* The visible text of a row: the examples of change request 6 with out of every length, marked and with every root, rows that are not
   there, refused and damaged sheets, the largest and deepest ones, every code point first and last in a text, and calls on the rows of
   pages, whose answers the unchanged serialize.rs gave (oracle/visible_text.py). A sheet stands at the end of its pages, and what is behind
   it cannot be read. After each call every byte of out is looked at, and the bytes on both sides of it. */
#include "vectors.h"

#include <sys/mman.h>
#include <unistd.h>

enum { EDGE = 64, FILL = '#', NODES = 20000, ATTRIBUTES = 60000, POOL = 4194304, DEPTH = 500 };
enum { HEADER = 33, NODE = 65, ATTRIBUTE = 33, LARGEST = HEADER + NODE * NODES + ATTRIBUTE * ATTRIBUTES + POOL };
enum { ELEMENT = 1, TEXT = 3, COMMENT = 8 };
enum { ROOM = 9000000, SHEETS = 110, ROUNDS = 200000, SAMPLE = 573, CALLS = 4654 };

static uint8_t out_room[ROOM + 2 * EDGE], wanted[ROOM], sheet[LARGEST];
static uint8_t *const out = out_room + EDGE;

/* ---- a sheet with nothing behind it */

static uint8_t *sheet_end;

static void make_fence(void) {
    size_t page = (size_t)sysconf(_SC_PAGESIZE), size = (LARGEST + page - 1) / page * page;
    uint8_t *made = mmap(0, size + page, PROT_READ | PROT_WRITE, MAP_PRIVATE | MAP_ANONYMOUS, -1, 0);
    if (made == MAP_FAILED || mprotect(made + size, page, PROT_NONE) != 0)
        end_badly("no page that cannot be read");
    sheet_end = made + size;
}

static void put_sheet(size_t length) { memcpy(sheet_end - length, sheet, length); }

/* ---- a call, and out after it */

/* `wanted` has what out must hold. */
static void check_call(const char *what, size_t length, size_t row, size_t room, size_t number, size_t second, size_t written) {
    memset(out_room, FILL, room + 2 * EDGE);
    levzhada_answer a = levzhada_visible_text(sheet_end - length, length, row, out, room);
    check_answer(what, a, number, second, 0, written);
    check(what, memcmp(out, wanted, room) == 0, 1);
    check(what, all(out_room, EDGE, FILL) && all(out + room, EDGE, FILL), 1);
}

static void check_refused(const char *what, size_t length, size_t row, size_t room, size_t number, size_t second) {
    memset(wanted, FILL, room);
    check_call(what, length, row, room, number, second, 0);
}

static void check_text(const char *what, size_t length, size_t row, size_t room, const void *text, size_t text_length, size_t need) {
    if (room < need) {
        check_refused(what, length, row, room, LEVZHADA_VISIBLE_TEXT_OUT_TOO_SHORT, need);
    } else {
        memcpy(wanted, text, text_length);
        memset(wanted + text_length, 0, room - text_length);
        check_call(what, length, row, room, LEVZHADA_ACCEPTED, 0, text_length);
    }
}

/* With none of out, a byte too few, enough and more; the sheet is unchanged. All of it counts as one check. */
static void check_row(const char *what, size_t length, size_t row, const void *text, size_t text_length, size_t need) {
    size_t rooms[] = {0, need - (need > 0), need, need + 3};
    for (size_t i = 0; i < sizeof rooms / sizeof *rooms; i++)
        check_text(what, length, row, rooms[i], text, text_length, need);
    check(what, memcmp(sheet_end - length, sheet, length) == 0, 1);
    close_vector();
}

/* ---- a sheet that grows */

static size_t rows, attributes, pool_length;
static uint8_t pool[POOL], lines[ATTRIBUTE * ATTRIBUTES];

static void put_line(uint8_t *at, size_t count, const size_t *numbers) {
    char line[NODE + 1];
    for (size_t i = 0; i < count; i++)
        sprintf(line + 8 * i, "%8zu", numbers[i]);
    line[8 * count] = '\n';
    memcpy(at, line, 8 * count + 1);
}

static size_t put(const void *s, size_t length) {
    if (length > POOL - pool_length)
        end_badly("a pool is too long");
    memcpy(pool + pool_length, s, length);
    pool_length += length;
    return pool_length - length;
}

static void range_row(size_t depth, size_t kind, size_t at, size_t length, size_t count) {
    size_t is_element = kind == ELEMENT, numbers[] = {depth, kind, 0, at, is_element ? length : 0, at, is_element ? 0 : length, count};
    put_line(sheet + HEADER + NODE * rows++, 8, numbers);
}

static void row(size_t depth, size_t kind, const char *s, size_t length) { range_row(depth, kind, put(s, length), length, 0); }

static void begin(void) {
    rows = attributes = pool_length = 0;
    row(0, ELEMENT, "body", 4);
}

static size_t finished(void) {
    size_t numbers[] = {rows, attributes, pool_length, 0}, at = HEADER + NODE * rows;
    put_line(sheet, 4, numbers);
    memcpy(sheet + at, lines, ATTRIBUTE * attributes);
    at += ATTRIBUTE * attributes;
    memcpy(sheet + at, pool, pool_length);
    put_sheet(at + pool_length);
    return at + pool_length;
}

/* A page: <name> begins an element and </> ends it, <!..> is a comment, | stands between two texts. */
static size_t page_of(const char *markup) {
    size_t depth = 1;
    begin();
    while (*markup) {
        if (*markup == '|') {
            markup++;
        } else if (*markup == '<') {
            size_t length = strcspn(++markup, ">");
            if (*markup == '/')
                depth--;
            else if (*markup == '!')
                row(depth, COMMENT, markup + 1, length - 1);
            else
                row(depth++, ELEMENT, markup, length);
            markup += length + 1;
        } else {
            size_t length = strcspn(markup, "<|");
            row(depth, TEXT, markup, length);
            markup += length;
        }
    }
    return finished();
}

/* ---- the examples */

#define NBSP "\xC2\xA0"
#define EM_SPACE "\xE2\x80\x83"

static const struct {
    const char *markup;
    size_t row;
    const char *text;
    size_t need;
} examples[] = {
    {"a<div>b</>", 0, "a\nb\n", 4},
    {"<div>a</>b", 0, "\nab", 3},
    {"<div>a</><!c>b", 0, "\nab", 3},
    {"<p>a</><p>b</>", 0, "\n\na\n\nb\n\n", 8},
    {"<div><span><p>a</></></>", 0, "\n\na\n", 5},
    {"<span><div>a</></>b", 0, "\na\nb", 4},
    {"x <pre> a  b </>c", 0, "x  a  b c", 9},
    {"x<pre>a     </>", 0, "xa\n", 7},
    {"a<br></><br></><br></><br></><br></><div>b</>", 0, "a\nb\n", 6},
    {"1<canvas>2</>3<video>4</>5<tfoot>6</>7", 0, "1\n23\n45\n67", 10},
    {"<table><tr><td>1</><td>2</></><tr><td>3</><td>4</></></>x", 0, "\n1234x", 6},
    {"<br>x</>y", 0, "\ny", 2},
    {"\v \va", 0, "a", 1},
    {"a |" NBSP EM_SPACE " x", 0, "a x", 3},
    {"<pre> a  b <br></>c</>", 1, "a b \nc", 6},
    /* no row below; a text, a comment; an element that is asked has no begin and no end step */
    {"", 0, "", 0},
    {"a<!b>", 1, "", 0},
    {"a<!b>", 2, "", 0},
    {"<div>a</>", 1, "a", 1},
    {"<p>a <p>b</></>c", 1, "a\n\nb\n\n", 6},
    {"<br>x <b> y</></>", 1, "x y", 3},
    {"<script>x</>", 1, "x", 1},
    {"<script>x</>y<style>z</><noscript><p>w</></>", 0, "y", 1},
    /* a blank text, a comment and a script are next siblings */
    {"<div>a</> ", 0, "\na ", 3},
    {"<div>a</><!>", 0, "\na", 2},
    {"<div>a</><script></>", 0, "\na", 2},
    /* U+000B is no blank, but is trimmed */
    {"a\v| b", 0, "a\v b", 4},
    {"a |\v\vb", 0, "a b", 3},
    {"a\v\v b \v<div></>", 0, "a\v\v b \v\n", 8},
    {"a" NBSP "| b", 0, "a" NBSP " b", 5},
    {"a " NBSP "<div>b</>", 0, "a " NBSP "\nb\n", 7},
    /* a pre below a pre, a br and a script in it, comments; blanks of a pre are taken away by its own end */
    {"<pre>a<pre> b </><br>c</><script>d</><!e> </>f", 0, "a b cd f", 8},
    {"<span><pre>a \t\n</></> b", 0, "a\nb", 4},
    {"<PRE> a  b </><P>c</><BR></>", 0, "a b c", 5},
    {"\n\t a\r\n\f b \n", 0, "a b ", 4},
};
enum { EXAMPLES = sizeof examples / sizeof *examples };

static void check_examples(void) {
    for (size_t k = 0; k < EXAMPLES; k++) {
        const char *markup = examples[k].markup, *text = examples[k].text;
        size_t length = page_of(markup), need = examples[k].need;
        check_answer(markup, levzhada_check(sheet_end - length, length), LEVZHADA_ACCEPTED, 0, 0, 0);
        for (size_t room = 0; room <= need + 20; room++) {
            check_text(markup, length, examples[k].row, room, text, strlen(text), need);
            close_vector();
        }
    }
}

static size_t skip_of(size_t i) { return HEADER + NODE * i + 3 * 8 - 1; }

/* Each row marked, all rows, and each element as the root. */
static void check_marks(void) {
    for (size_t k = 0; k < EXAMPLES; k++) {
        const char *markup = examples[k].markup, *text = examples[k].text;
        size_t length = page_of(markup), need = examples[k].need;
        for (size_t i = 0; i <= rows; i++) {
            for (size_t j = 0; j < rows; j++)
                sheet[skip_of(j)] = i == j || i == rows ? '1' : '0';
            put_sheet(length);
            check_row(markup, length, examples[k].row, text, strlen(text), need);
        }
        for (size_t i = 0; i < rows; i++)
            if (sheet[HEADER + NODE * i + 15] == '1') {
                char columns[9];
                sprintf(columns, "%8zu", i);
                memcpy(sheet + 24, columns, 8);
                put_sheet(length);
                check_row(markup, length, examples[k].row, text, strlen(text), need);
            }
    }
}

/* ---- rows that are not there */

static void no_rows(void) {
    for (size_t k = 0; k < EXAMPLES; k++) {
        const char *markup = examples[k].markup;
        size_t length = page_of(markup), past[66] = {rows, rows + 1, NODES, SIZE_MAX}, count = 4;
        for (size_t bit = 5; bit < 64; bit++)
            past[count++] = (size_t)1 << bit;
        for (size_t i = 0; i < count; i++) {
            for (size_t room = 0; room <= 20; room += 20)
                check_refused(markup, length, past[i], room, LEVZHADA_NO_ROW, past[i]);
            close_vector();
        }
    }
}

/* ---- refused sheets */

/* The sheets of tests/c/verdicts.c: their numbers come before those of a row that is not there, and of an out that is too short. */
static size_t verdicts(void) {
    size_t n;
    open_vectors("tests/vectors/verdicts.in", "tests/vectors/verdicts.out");
    for (n = 0; more(inputs); n++) {
        char what[32], line[64];
        size_t length = take_input(sheet, LARGEST), number, second;
        take_line(answers, line, sizeof line);
        if (sscanf(line, "%zu %zu", &number, &second) != 2)
            end_badly("a number is wrong");
        sprintf(what, "verdict %zu", n);
        put_sheet(length);
        for (size_t room = 0; room <= 100; room += 100)
            if (number == LEVZHADA_ACCEPTED) {
                check_refused(what, length, NODES, room, LEVZHADA_NO_ROW, NODES);
            } else {
                check_refused(what, length, 0, room, number, second);
                check_refused(what, length, NODES, room, number, second);
            }
        close_vector();
    }
    return n;
}

/* xorshift64 */
static uint64_t state = 88172645463325252u;

static size_t below(size_t n) {
    state ^= state << 13;
    state ^= state >> 7;
    state ^= state << 17;
    return state % n;
}

/* A call refuses exactly what the verdict refuses, and then leaves out as it was. */
static void damaged(void) {
    static const char likely[] = "0123456789 \n\xC3\xBC\x80z";
    static uint8_t before[2048];
    size_t length = page_of("<p>a b </><pre>\xC3\xBC  </>c<div>d|\xE2\x80\x83 e</><!f><br></>"), unlike = 0, accepted = 0, met[40] = {0};
    uint8_t *at = sheet_end - length;
    if (length > sizeof before)
        end_badly("a sheet is too long");
    memcpy(before, at, length);
    for (int round = 0; round < ROUNDS; round++) {
        size_t short_by = below(50) ? 0 : below(length), asked = below(4) ? below(rows) : SIZE_MAX - below(3), room = below(40);
        for (size_t hits = 1 + below(2); hits > 0; hits--)
            at[below(length)] = below(4) ? (uint8_t)likely[below(sizeof likely - 1)] : (uint8_t)below(256);
        memset(out_room, FILL, room + 2 * EDGE);
        levzhada_answer v = levzhada_check(at + short_by, length - short_by);
        levzhada_answer a = levzhada_visible_text(at + short_by, length - short_by, asked, out, room);
        if (v.number == LEVZHADA_ACCEPTED) {
            size_t is_there = asked < SIZE_MAX - 3, is_text = a.number == LEVZHADA_ACCEPTED;
            unlike += !is_there && (a.number != LEVZHADA_NO_ROW || a.second != asked);
            unlike += is_there && !is_text && (a.number != LEVZHADA_VISIBLE_TEXT_OUT_TOO_SHORT || a.second <= room);
            unlike += is_text && (a.length > room || !all(out + a.length, room - a.length, 0));
            unlike += !is_text && !all(out, room, FILL);
            accepted++;
        } else {
            unlike += a.number != v.number || a.second != v.second || a.visits != 0 || a.length != 0 || !all(out, room, FILL);
            met[v.number]++;
        }
        unlike += !all(out_room, EDGE, FILL) || !all(out + room, EDGE, FILL);
        memcpy(at, before, length);
    }
    check("damaged sheets that are told in another way", unlike, 0);
    check("some damaged sheets are accepted", accepted > 0, 1);
    for (size_t number = LEVZHADA_WRONG_LENGTH; number <= LEVZHADA_NOT_UTF8; number++)
        check("each number is met", met[number] > 0, 1);
    close_vector();
}

/* ---- the largest sheets */

static void largest(void) {
    static uint8_t text[POOL + 16];
    size_t length, p, i, a;

    /* paragraphs of two bytes, and as many rows as there may be */
    begin();
    p = put("p", 1);
    a = put("xy", 2);
    for (i = 0; i < NODES / 2 - 1; i++) {
        range_row(1, ELEMENT, p, 1, 0);
        range_row(2, TEXT, a, 2, 0);
        memcpy(text + 4 * i, "\n\nxy", 4);
    }
    range_row(1, TEXT, a, 0, 0);
    check("rows", rows, NODES);
    length = finished();
    check_row("20,000 rows", length, 0, text, 4 * i, 4 * i);
    check_row("20,000 rows, one of them", length, NODES - 3, "xy", 2, 2);
    check_row("20,000 rows, the last", length, NODES - 1, "", 0, 0);
    check_refused("20,000 rows, past the last", length, NODES, 8, LEVZHADA_NO_ROW, NODES);

    /* blocks alone: what one has added the next takes away */
    begin();
    p = put("p", 1);
    while (rows < NODES)
        range_row(1, ELEMENT, p, 1, 0);
    length = finished();
    check_row("blocks alone", length, 0, "\n\n", 2, 2);

    /* one text in many rows: the need passes the pool's length by far */
    begin();
    memset(text, 'x', sizeof text);
    a = put(text, 100000);
    while (rows < NODES)
        range_row(1, TEXT, a, 100000, 0);
    length = finished();
    check_refused("texts that overlap", length, 0, 1000, LEVZHADA_VISIBLE_TEXT_OUT_TOO_SHORT, (size_t)(NODES - 1) * 100000);
    close_vector();

    /* 60,000 attributes and a pool of 4,194,304 bytes, shown by a text and by a pre */
    begin();
    range_row(1, ELEMENT, put("b", 1), 1, ATTRIBUTES);
    p = put("pre", 3);
    for (; attributes < ATTRIBUTES; attributes++) {
        size_t numbers[] = {p, 3, 0, 4};
        put_line(lines + ATTRIBUTE * attributes, 4, numbers);
    }
    a = put(text, POOL - pool_length);
    range_row(1, TEXT, a, POOL - a, 0);
    range_row(1, ELEMENT, p, 3, 0);
    range_row(2, TEXT, a, POOL - a, 0);
    check("pool", pool_length, POOL);
    while (rows < NODES)
        range_row(1, COMMENT, a, POOL - a, 0);
    length = finished();
    check("the longest sheet", length, LARGEST);
    check_row("the longest sheet, a pre", length, 3, text, POOL - a, POOL - a);
    check_refused("the longest sheet", length, 0, 16, LEVZHADA_VISIBLE_TEXT_OUT_TOO_SHORT, 2 * (POOL - a));
    memset(out, FILL, ROOM);
    check_answer("the longest sheet", levzhada_visible_text(sheet_end - length, length, 0, out, ROOM), LEVZHADA_ACCEPTED, 0, 0,
                 2 * (POOL - a));
    check("the longest sheet", all(out, 2 * (POOL - a), 'x') && all(out + 2 * (POOL - a), ROOM - 2 * (POOL - a), 0), 1);
    close_vector();

    /* blanks alone: in a text nothing is left of them, in a pre the need counts them */
    begin();
    memset(text, ' ', sizeof text);
    p = put("pre", 3);
    a = put(text, POOL - pool_length);
    range_row(1, TEXT, a, POOL - a, 0);
    range_row(1, ELEMENT, p, 3, 0);
    range_row(2, TEXT, a, POOL - a, 0);
    length = finished();
    check_row("4 MB of blanks", length, 0, "\n", 1, POOL - a);
    check_row("4 MB of blanks, a pre", length, 2, "", 0, 0);
}

/* Rows one below the other as far as they go, then a text: each row is asked. */
static void check_nest(const char *name, const char *text, size_t need) {
    char what[64];
    size_t length;
    begin();
    for (size_t depth = 1; depth < DEPTH; depth++)
        row(depth, ELEMENT, name, strlen(name));
    row(DEPTH, TEXT, "a", 1);
    length = finished();
    for (size_t i = 0; i <= DEPTH; i++) {
        sprintf(what, "%s in %s, from row %zu", name, name, i);
        if (i < DEPTH - 1)
            check_row(what, length, i, text, strlen(text), need);
        else
            check_row(what, length, i, "a", i < DEPTH, i < DEPTH);
    }
}

/* ---- every code point */

static int is_blank(uint32_t c) { return c == '\t' || c == '\n' || c == '\f' || c == '\r' || c == ' '; }

/* White_Space: the ranges of Unicode's PropList.txt */
static int is_white(uint32_t c) {
    static const uint32_t ranges[][2] = {{0x09, 0x0D},     {0x20, 0x20},     {0x85, 0x85},     {0xA0, 0xA0},     {0x1680, 0x1680},
                                         {0x2000, 0x200A}, {0x2028, 0x2029}, {0x202F, 0x202F}, {0x205F, 0x205F}, {0x3000, 0x3000}};
    for (size_t i = 0; i < sizeof ranges / sizeof *ranges; i++)
        if (ranges[i][0] <= c && c <= ranges[i][1])
            return 1;
    return 0;
}

static size_t utf8(uint32_t c, uint8_t *to) {
    size_t length = c < 0x80 ? 1 : c < 0x800 ? 2 : c < 0x10000 ? 3 : 4;
    static const uint8_t first[] = {0, 0, 0xC0, 0xE0, 0xF0};
    for (size_t i = length; i-- > 1; c >>= 6)
        to[i] = (uint8_t)(0x80 | (c & 0x3F));
    to[0] = (uint8_t)(first[length] | c);
    return length;
}

/* Pages with a character, ~: first and last in a text, behind a blank, behind a letter and behind nothing, before a text and before a
   block, and in a pre. What is left of it: in a text a blank is a space; where the text is trimmed nothing is left of White_Space; before a
   block nothing is left of a blank; a pre is copied. `before` and `behind` stand on both sides of it in the text. */
enum { KEPT, TRIMMED, STRIPPED, COPIED };
static const struct {
    const char *markup, *before, *behind;
    int left;
} places[] = {
    {"x |~y", "x ", "y", TRIMMED},
    {"x|~y", "x", "y", KEPT},
    {"~y", "", "y", TRIMMED},
    {"<br></>~y", "\n", "y", TRIMMED},
    {"x |y~", "x y", "", KEPT},
    {"x|y~", "xy", "", KEPT},
    {"x|y~<div></>", "xy", "\n", STRIPPED},
    {"x<pre>~</>y", "x", "y", COPIED},
};
enum { PLACES = sizeof places / sizeof *places };

/* The sheets of each place by the character's length, and where the character stands. */
static struct {
    uint8_t sheet[512];
    size_t length, at;
} place_sheets[PLACES][5];

static void make_places(void) {
    for (size_t k = 0; k < PLACES; k++)
        for (size_t length = 1; length <= 4; length++) {
            char markup[64];
            size_t before = strcspn(places[k].markup, "~"), made;
            sprintf(markup, "%.*s%.*s%s", (int)before, places[k].markup, (int)length, "~~~~", places[k].markup + before + 1);
            made = page_of(markup);
            if (made > sizeof place_sheets[k][length].sheet)
                end_badly("a sheet is too long");
            memcpy(place_sheets[k][length].sheet, sheet, made);
            place_sheets[k][length].length = made;
            place_sheets[k][length].at = (size_t)((uint8_t *)memchr(sheet, '~', made) - sheet);
        }
}

/* The text of a place, and its length. */
static size_t place_text(size_t k, uint32_t c, uint8_t *text) {
    size_t length = strlen(places[k].before);
    memcpy(text, places[k].before, length);
    if (places[k].left == COPIED || (places[k].left == TRIMMED ? !is_white(c) : !is_blank(c)))
        length += utf8(c, text + length);
    else if (places[k].left == KEPT)
        text[length++] = ' ';
    memcpy(text + length, places[k].behind, strlen(places[k].behind));
    return length + strlen(places[k].behind);
}

static int is_place_right(size_t k, uint32_t c) {
    uint8_t character[4], text[32], got[32];
    size_t size = utf8(c, character), length = place_text(k, c, text);
    memcpy(place_sheets[k][size].sheet + place_sheets[k][size].at, character, size);
    memset(got, FILL, sizeof got);
    levzhada_answer a = levzhada_visible_text(place_sheets[k][size].sheet, place_sheets[k][size].length, 0, got, 16);
    return a.number == LEVZHADA_ACCEPTED && a.second == 0 && a.visits == 0 && a.length == length && memcmp(got, text, length) == 0 &&
           all(got + length, 16 - length, 0) && all(got + 16, sizeof got - 16, FILL);
}

/* Those of a plane and of a place are one check. */
static void code_points(void) {
    size_t white = 0;
    make_places();
    for (uint32_t plane = 0; plane < 0x11; plane++)
        for (size_t k = 0; k < PLACES; k++) {
            char what[64];
            size_t wrong = 0;
            for (uint32_t c = plane << 16; c < (plane + 1) << 16; c++) {
                int is_surrogate = 0xD800 <= c && c <= 0xDFFF;
                if (!is_surrogate && !is_place_right(k, c) && wrong++ == 0)
                    printf("U+%04X in %s\n", c, places[k].markup);
                white += k == 0 && is_white(c);
            }
            sprintf(what, "plane %u in %s", plane, places[k].markup);
            check(what, wrong, 0);
            close_vector();
        }
    check("White_Space characters", white, 25);
    close_vector();
}

/* ---- calls with their answers */

static size_t calls(void) {
    size_t n = 0, sheets;
    open_vectors("tests/vectors/visible_text.in", "tests/vectors/visible_text.out");
    for (sheets = 0; more(inputs); sheets++) {
        char what[48], line[64];
        size_t length = take_number(inputs), count = take_number(inputs), number, second, visits, written;
        take_line_end(inputs);
        if (length > LARGEST)
            end_badly("a sheet is too long");
        take(inputs, sheet, length);
        put_sheet(length);
        for (size_t i = 0; i < count; i++, n++) {
            size_t asked = take_number(inputs), room = take_number(inputs);
            take_line_end(inputs);
            take_line(answers, line, sizeof line);
            if (sscanf(line, "%zu %zu %zu %zu", &number, &second, &visits, &written) != 4 || visits != 0 || room > ROOM)
                end_badly("a call is wrong");
            take(answers, wanted, room);
            take_line_end(answers);
            sprintf(what, "call %zu, on sheet %zu", n, sheets);
            check_call(what, length, asked, room, number, second, written);
            close_vector();
        }
    }
    check("the vectors: sheets", sheets, SAMPLE);
    close_vector();
    return n;
}

int main(void) {
    size_t made;
    make_fence();
    check("verdicts: sheets", verdicts(), SHEETS);
    close_vector();
    made = calls();
    check_examples();
    check_marks();
    no_rows();
    damaged();
    largest();
    check_nest("p", "\n\na\n\n", 5);
    check_nest("div", "\na\n", 3);
    check_nest("span", "a", 1);
    code_points();
    return close_vectors(made, CALLS);
}
