/* The text of a page, called from C: small pages and each number of an extraction, with out and work looked at byte by byte. */
#include "check.h"

/* ---- a sheet from a page's tags and text: attributes in double quotes, no entities */

static char rows[100000], attributes[1000], pool[20000], sheet[130000];
static int row_count, attribute_count, pool_length;

static int pooled(const char *s, int length) {
    memcpy(pool + pool_length, s, (size_t)length);
    pool_length += length;
    return pool_length - length;
}

static void put_row(int depth, int kind, int name_at, int name_length, int value_at, int value_length, int count) {
    sprintf(rows + 65 * row_count++, "%8d%8d%8d%8d%8d%8d%8d%8d\n", depth, kind, 0, name_at, name_length, value_at, value_length,
            count);
}

/* The attributes of a tag from p on; where they end. */
static const char *put_attributes(const char *p) {
    while (*p == ' ') {
        int name = (int)strcspn(++p, "=");
        int name_at = pooled(p, name);
        p += name + 2;
        int value = (int)strcspn(p, "\"");
        int value_at = pooled(p, value);
        p += value + 1;
        sprintf(attributes + 33 * attribute_count++, "%8d%8d%8d%8d\n", name_at, name, value_at, value);
    }
    return p;
}

static size_t sheet_of(const char *p) {
    int depth = 1;
    row_count = attribute_count = pool_length = 0;
    put_row(0, 1, pooled("body", 4), 4, 0, 0, 0);
    while (*p) {
        int length = (int)strcspn(p, "<");
        if (length > 0) {
            put_row(depth, 3, 0, 0, pooled(p, length), length, 0);
            p += length;
        } else if (p[1] == '/') {
            depth--;
            p = strchr(p, '>') + 1;
        } else {
            int before = attribute_count, name = (int)strcspn(++p, " >"), has_end = strncmp(p, "br>", 3) != 0;
            int name_at = pooled(p, name);
            p = put_attributes(p + name) + 1;
            put_row(depth, 1, name_at, name, 0, 0, attribute_count - before);
            depth += has_end;
        }
    }
    int length = sprintf(sheet, "%8d%8d%8d%8d\n", row_count, attribute_count, pool_length, 0);
    length += sprintf(sheet + length, "%.*s%.*s", 65 * row_count, rows, 33 * attribute_count, attributes);
    memcpy(sheet + length, pool, (size_t)pool_length);
    return (size_t)(length + pool_length);
}

/* ---- a call, and both buffers after it */

enum { EDGE = 8, ROOM = 200 };

/* Whether a buffer of length bytes holds text and zeros behind it (as it was: no text) and nothing changed on either side of it. */
static int holds(const uint8_t *room, size_t length, const char *text) {
    size_t i, written = text ? strlen(text) : 0;
    for (i = 0; i < ROOM + 2 * EDGE; i++) {
        int inside = text && i >= EDGE && i - EDGE < length;
        if (room[i] != (inside ? i - EDGE < written ? (uint8_t)text[i - EDGE] : 0 : '#'))
            return 0;
    }
    return 1;
}

/* text: what out is to hold, if anything; zero: whether work is to be zero. */
static void check_extract(const char *what, size_t sheet_length, const char *options, size_t out_length, size_t work_length,
                          levzhada_answer wanted, const char *text, int zero) {
    uint8_t out[ROOM + 2 * EDGE], work[ROOM + 2 * EDGE];
    memset(out, '#', sizeof out);
    memset(work, '#', sizeof work);
    check_answer(what,
                 levzhada_extract(bytes(sheet), sheet_length, bytes(options), strlen(options), out + EDGE, out_length, work + EDGE,
                                  work_length),
                 wanted.number, wanted.second, wanted.visits, wanted.length);
    check(what, holds(out, out_length, text), 1);
    check(what, holds(work, work_length, zero ? "" : 0), 1);
}

static void check_refused(const char *what, size_t sheet_length, const char *options, size_t out_length, size_t work_length,
                          size_t number, size_t second) {
    levzhada_answer wanted = {number, second, 0, 0};
    check_extract(what, sheet_length, options, out_length, work_length, wanted, 0, number == LEVZHADA_OUT_TOO_SHORT);
}

/* ---- the pages */

#define STANDING "10110011000\n"
#define OFF "00110011000\n"
#define HTML "20110011000\n"
#define LINKS "10111011000\n"
#define MAIN "11110011000\n"
#define ICONS "11110011010\n"
#define PICTURES "10110011001\n"

/* work and out: what is needed */
static const struct {
    const char *html, *options, *text;
    size_t visits, work, out;
} pages[] = {
    {"", STANDING, "", 1, 0, 0},
    {"<ul><li>a</li><li>b</li></ul>", STANDING, "  • a\n  • b", 10, 1, 15},
    {"<li>a</li><p>b</p>", STANDING, "  • a\n\n    • b", 8, 1, 18},
    {"<ul></ul><p>b</p>", STANDING, "    b", 6, 1, 5},
    {"<span><div>a</div></span> b", OFF, "a  b", 8, 2, 4},
    {" x", OFF, " x", 3, 2, 2},
    {"<tr><td>1</td><td>2</td></tr>", STANDING, "1\t\t2", 10, 1, 4},
    {"<tr><td>1</td><td>2</td></tr>", OFF, "1 2", 10, 1, 3},
    {"<tr><td>1</td>x</tr>", STANDING, "1", 8, 1, 1},
    {"a<br><br>b", STANDING, "a\n\nb", 6, 1, 4},
    {"<a href=\" u \">t</a>", LINKS, "t (u)", 5, 4, 5},
    {"<p>a&b</p>", HTML, "<p>a&amp;b</p>", 5, 3, 14},
    {"<td>\xe2\x88\x92<b>0.4</b></td>", MAIN, "0.4", 8, 3, 3},
    {"<td>\xe2\x88\x92<b>0.4</b></td>", ICONS, "\xe2\x88\x92" "0.4", 8, 6, 6},
    {"\xf3\xb0\x80\x80", ICONS, "", 3, 1, 0},
    {" \xf4\x8f\xbf\xbd\n", ICONS, "", 3, 1, 0},
    {"\xf3\xbf\xbf\xbe", ICONS, "\xf3\xbf\xbf\xbe", 3, 4, 4},
    {"\xf3\xb0\x80\x80", MAIN, "\xf3\xb0\x80\x80", 3, 4, 4},
    {"\xee\x80\x80", MAIN, "", 3, 1, 0},
    {"\xef\xa3\xbf", MAIN, "", 3, 1, 0},
    {"\xe2\x88\x92", MAIN, "", 3, 1, 0},
    {"\xef\xbf\xbd", MAIN, "", 3, 1, 0},
    {"\xe2\x80\x80", MAIN, "\xe2\x80\x80", 3, 3, 3},
    {"\xef\xa4\xbf", MAIN, "\xef\xa4\xbf", 3, 3, 3},
    {"abc", MAIN, "abc", 3, 3, 3},
    {"a b \n", STANDING, "a b", 3, 5, 4},
    {"<img></img>", PICTURES, "[picture]", 3, 9, 9},
    {"<img></img>", STANDING, "", 3, 0, 0},
    {"a<area></area>b", PICTURES, "a[picture]b", 5, 11, 11},
    {"a<img alt=\"\"></img>b", PICTURES, "ab", 5, 2, 2},
    {"a<img alt=\" \"></img>b", PICTURES, "a b", 5, 3, 3},
    {"a<img ALT=\"i\"></img>b", PICTURES, "a[picture]b", 5, 11, 11},
    {"<img>c</img>", PICTURES, "[picture]c[picture]", 5, 19, 19},
    {"<tr><td>1</td><img></img></tr>", PICTURES, "1", 8, 9, 1},
};

static void texts(void) {
    size_t i;
    for (i = 0; i < sizeof pages / sizeof pages[0]; i++) {
        const char *html = pages[i].html, *options = pages[i].options, *text = pages[i].text;
        size_t out = pages[i].out, work = pages[i].work, length = sheet_of(html);
        levzhada_answer wanted = {LEVZHADA_ACCEPTED, 0, pages[i].visits, strlen(text)};
        check_extract(html, length, options, ROOM, ROOM, wanted, text, 1);
        check_extract(html, length, options, out, work, wanted, text, 1);
        if (work > 0) {
            check_refused(html, length, options, ROOM, work - 1, LEVZHADA_WORK_TOO_SHORT, work);
            check_refused(html, length, options, 0, 0, LEVZHADA_WORK_TOO_SHORT, work);
        }
        if (out > 0) {
            check_refused(html, length, options, out - 1, work, LEVZHADA_OUT_TOO_SHORT, out);
            check_refused(html, length, options, 0, ROOM, LEVZHADA_OUT_TOO_SHORT, out);
        }
    }
}

/* ---- the numbers that come before 31 */

static void lines(void) {
    static const char *wrong[] = {"",
                                  "10110011000",
                                  "10110011000\r",
                                  "1011001100\n",
                                  "1011001100\n\n",
                                  "101100110000\n",
                                  "30110011000\n",
                                  "/0110011000\n",
                                  "12110011000\n",
                                  "10110011020\n",
                                  "10110011002\n"};
    levzhada_answer wanted = {LEVZHADA_ACCEPTED, 0, 3, 1};
    size_t i, length = sheet_of("a");
    for (i = 0; i < sizeof wrong / sizeof wrong[0]; i++)
        check_refused(wrong[i], length, wrong[i], ROOM, ROOM, LEVZHADA_WRONG_OPTIONS, 0);
    check_refused("a wrong line before a wrong sheet", 0, "", ROOM, ROOM, LEVZHADA_WRONG_OPTIONS, 0);
    check_extract("bytes behind the line", length, STANDING "x", ROOM, ROOM, wanted, "a", 1);
}

static void sheets(void) {
    size_t length = sheet_of("a");
    check_refused("no sheet", 0, STANDING, ROOM, ROOM, LEVZHADA_WRONG_LENGTH, 33);
    check_refused("a sheet cut short", length - 1, STANDING, ROOM, ROOM, LEVZHADA_WRONG_LENGTH, length);
    sheet[33 + 65 + 7] = '2';
    check_refused("a depth", length, STANDING, 0, 0, LEVZHADA_WRONG_TREE, 2);
}

/* The same childless tag so many times. */
static size_t many(const char *tag, int times) {
    static char html[20000];
    int i, length = 0;
    for (i = 0; i < times; i++)
        length += sprintf(html + length, "%s", tag);
    return sheet_of(html);
}

static void levels(void) {
    levzhada_answer most = {LEVZHADA_ACCEPTED, 0, 1026, 0}, one_more = {LEVZHADA_ACCEPTED, 0, 1027, 0};
    check_extract("1,024 lists", many("<ul></ul>", 1024), STANDING, 0, 0, most, "", 1);
    check_refused("1,025 lists", many("<ul></ul>", 1025), STANDING, 0, 0, LEVZHADA_TOO_MANY_LIST_LEVELS, 1026);
    check_extract("1,025 lists, Off", many("<ul></ul>", 1025), OFF, 0, 0, one_more, "", 1);
    check_extract("1,024 rows", many("<tr></tr>", 1024), STANDING, 0, 0, most, "", 1);
    check_refused("1,025 rows", many("<tr></tr>", 1025), STANDING, 0, 0, LEVZHADA_TOO_MANY_OPEN_ROWS, 1026);
    check_refused("1,025 rows, Off", many("<tr></tr>", 1025), OFF, 0, 0, LEVZHADA_TOO_MANY_OPEN_ROWS, 1026);
}

int main(void) {
    texts();
    lines();
    sheets();
    levels();
    return close_checks();
}
