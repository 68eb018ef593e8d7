/* Every code point but the surrogates in a text of its own: alone, with blanks around it, and twice; with main_content, icons 0 and 1.
   The texts stand in sheets of 20,000 rows; what each call should give is put together here, and both buffers are looked at whole. */
#include "check.h"

#include <stdlib.h>

enum { CODE_POINTS = 0x110000, FIRST_SURROGATE = 0xD800, LAST_SURROGATE = 0xDFFF, TEXTS = 6666, LONGEST = 12 };

enum form { ALONE, IN_BLANKS, TWICE, FORMS };
static const char *const forms[FORMS] = {"alone", "in blanks", "twice"};

/* formatting Off, main_content */
static const char *const option_lines[2] = {"01110011000\n", "01110011010\n"};

/* ---- what is expected */

static size_t encoded(unsigned c, char *s) {
    static const unsigned first[] = {0, 0, 0xC0, 0xE0, 0xF0};
    size_t n = c < 0x80 ? 1 : c < 0x800 ? 2 : c < 0x10000 ? 3 : 4;
    for (size_t i = n - 1; i > 0; i--, c >>= 6)
        s[i] = (char)(0x80 | (c & 63));
    s[0] = (char)(first[n] | c);
    return n;
}

static int is_blank(unsigned c) { return c == ' ' || (c >= 9 && c <= 13); }

/* icons 0: three bytes as a little-endian number; icons 1: private use; "¶" in both. Two characters are no icon in either. */
static int is_icon(unsigned c, enum form form, int icons) {
    char s[4];
    if (form == TWICE)
        return 0;
    if (c == 0xB6)
        return 1;
    if (icons)
        return (c >= 0xE000 && c <= 0xF8FF) || (c >= 0xF0000 && c <= 0xFFFFD) || (c >= 0x100000 && c <= 0x10FFFD);
    if (encoded(c, s) != 3)
        return 0;
    unsigned code = (unsigned)(uint8_t)s[0] | (unsigned)(uint8_t)s[1] << 8 | (unsigned)(uint8_t)s[2] << 16;
    return code >= 0x8080EE && code <= 0xBFA3EF;
}

static size_t text_of(unsigned c, enum form form, char *s) {
    size_t before = 0, length;
    if (form == IN_BLANKS) {
        memcpy(s, "\n ", 2);
        before = 2;
    }
    length = before + encoded(c, s + before);
    if (form == IN_BLANKS) {
        memcpy(s + length, "\v\t", 2);
        return length + 2;
    }
    return form == TWICE ? length + encoded(c, s + length) : length;
}

/* What such a text shows between two bars. */
static size_t shown(unsigned c, enum form form, int icons, char *s) {
    size_t length;
    if (is_icon(c, form, icons))
        return 0;
    s[0] = ' ';
    if (is_blank(c))
        return 1;
    if (form != IN_BLANKS)
        return text_of(c, form, s);
    length = 1 + encoded(c, s + 1);
    s[length] = ' ';
    return length + 1;
}

/* ---- a sheet: body, a bar, and for each code point its text and b with a bar */

static char *sheet, *pool, *text;
static uint8_t *out, *work;

/* A number in 8 columns. */
static char *field(char *at, size_t n) {
    memset(at, ' ', 8);
    at[7] = '0';
    for (int i = 7; n > 0; n /= 10)
        at[i--] = (char)('0' + n % 10);
    return at + 8;
}

static char *row(char *at, size_t depth, size_t kind, size_t name_at, size_t name_length, size_t value_at, size_t value_length) {
    size_t numbers[] = {depth, kind, 0, name_at, name_length, value_at, value_length, 0};
    for (int i = 0; i < 8; i++)
        at = field(at, numbers[i]);
    *at = '\n';
    return at + 1;
}

static size_t sheet_of(const unsigned *codes, size_t count, enum form form) {
    enum { BODY = 0, B = 4, BAR = 5 };
    size_t rows = 2 + 3 * count, used = 6;
    char *at = sheet + 33;
    memcpy(pool, "bodyb|", used);
    at = row(at, 0, 1, BODY, 4, 0, 0);
    at = row(at, 1, 3, 0, 0, BAR, 1);
    for (size_t i = 0; i < count; i++) {
        size_t length = text_of(codes[i], form, pool + used);
        at = row(at, 1, 3, 0, 0, used, length);
        at = row(at, 1, 1, B, 1, 0, 0);
        at = row(at, 2, 3, 0, 0, BAR, 1);
        used += length;
    }
    field(field(field(field(sheet, rows), 0), used), 0)[0] = '\n';
    memcpy(at, pool, used);
    return (size_t)(at - sheet) + used;
}

/* ---- a call */

/* Code points in turn, surrogates left out. */
static size_t some_codes(unsigned *next, unsigned *codes) {
    size_t count = 0;
    for (; count < TEXTS && *next < CODE_POINTS; ++*next)
        if (*next < FIRST_SURROGATE || *next > LAST_SURROGATE)
            codes[count++] = *next;
    return count;
}

/* Where a text differs from what is expected: the code point, or none. */
static unsigned first_wrong(const unsigned *codes, size_t count, enum form form, int icons, const uint8_t *got) {
    char s[LONGEST];
    size_t at = 1;
    for (size_t i = 0; i < count; i++) {
        size_t n = shown(codes[i], form, icons, s);
        if (memcmp(got + at, s, n) != 0 || got[at + n] != '|')
            return codes[i];
        at += n + 1;
    }
    return CODE_POINTS;
}

static void check_sheet(size_t length, const unsigned *codes, size_t count, enum form form, int icons) {
    size_t wanted = 1, room = LONGEST * TEXTS + 64, i;
    char what[64], s[LONGEST];
    text[0] = '|';
    for (i = 0; i < count; i++) {
        size_t n = shown(codes[i], form, icons, s);
        memcpy(text + wanted, s, n);
        text[wanted + n] = '|';
        wanted += n + 1;
    }
    memset(text + wanted, 0, room - wanted);
    memset(out, '#', room);
    memset(work, '#', room);
    sprintf(what, "U+%04X to U+%04X %s, icons %d", codes[0], codes[count - 1], forms[form], icons);
    levzhada_answer a = levzhada_extract(bytes(sheet), length, bytes(option_lines[icons]), LINE, out, room, work, room);
    /* each row is met once, b once more behind its bar, body once more at the end */
    check_answer(what, a, LEVZHADA_ACCEPTED, 0, 3 + 4 * count, wanted);
    check_bytes(what, out, text, room);
    if (memcmp(out, text, room) != 0)
        printf("  at U+%04X\n", first_wrong(codes, count, form, icons, out));
    memset(text, 0, room);
    check_bytes(what, work, text, room);
}

int main(void) {
    unsigned codes[TEXTS], next = 0;
    size_t room = LONGEST * TEXTS + 64, count, all = 0;
    sheet = malloc(33 + 65 * (2 + 3 * (size_t)TEXTS) + room);
    pool = malloc(room);
    text = malloc(room);
    out = malloc(room);
    work = malloc(room);
    if (!sheet || !pool || !text || !out || !work)
        return 1;
    while ((count = some_codes(&next, codes)) > 0) {
        all += count;
        for (int form = 0; form < FORMS; form++) {
            size_t length = sheet_of(codes, count, (enum form)form);
            for (int icons = 0; icons < 2; icons++)
                check_sheet(length, codes, count, (enum form)form, icons);
        }
    }
    check("code points", all, 1112064);
    return close_checks();
}
