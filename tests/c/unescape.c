/* Escaped texts that are read back: the examples of change request 5 with out of every length, calls whose answers oracle/unescape.py made,
   names at every place of a text, every byte in the place of every byte of a name, and what levzhada_escape writes of any bytes. A text
   stands at the end of its pages, and what is behind it cannot be read. After each call every byte of out is looked at, and the bytes on
   both sides of it. */
#include "vectors.h"

#include <sys/mman.h>
#include <unistd.h>

enum { EDGE = 64, FILL = '#', PLACES = 41, BEHIND = 18, LENGTHS = 300, LARGEST = 1 << 20, ROOM = LARGEST + 64, CALLS = 5798 };

/* in the place of an offset: the text is accepted */
#define NONE SIZE_MAX

static uint8_t out_room[ROOM + 2 * EDGE], wanted[ROOM];
static uint8_t *const out = out_room + EDGE;

/* ---- a text with nothing behind it */

static uint8_t *text_end;

static void make_fence(void) {
    size_t page = (size_t)sysconf(_SC_PAGESIZE), size = (ROOM + page - 1) / page * page;
    uint8_t *made = mmap(0, size + page, PROT_READ | PROT_WRITE, MAP_PRIVATE | MAP_ANONYMOUS, -1, 0);
    if (made == MAP_FAILED || mprotect(made + size, page, PROT_NONE) != 0)
        end_badly("no page that cannot be read");
    text_end = made + size;
}

/* ---- a call, and out after it */

/* `wanted` has what out must hold. */
static void check_call(const char *what, size_t length, size_t room, size_t number, size_t second, size_t written) {
    memset(out_room, FILL, room + 2 * EDGE);
    levzhada_answer a = levzhada_unescape(text_end - length, length, out, room);
    check_answer(what, a, number, second, 0, written);
    check(what, memcmp(out, wanted, room) == 0, 1);
    check(what, all(out_room, EDGE, FILL) && all(out + room, EDGE, FILL), 1);
}

static void put_text(const void *text, size_t length) {
    if (length > LARGEST)
        end_badly("a text is too long");
    memcpy(text_end - length, text, length);
}

/* The ampersand at `at` starts no name, however long out is. */
static void check_refused(const char *what, size_t length, size_t room, size_t at) {
    memset(wanted, FILL, room);
    check_call(what, length, room, LEVZHADA_NO_ENTITY, at, 0);
}

/* The text is accepted, and these are its characters. */
static void check_accepted(const char *what, size_t length, size_t room, const void *characters, size_t need) {
    if (room < need) {
        memset(wanted, FILL, room);
        check_call(what, length, room, LEVZHADA_UNESCAPE_OUT_TOO_SHORT, need, 0);
    } else {
        memcpy(wanted, characters, need);
        memset(wanted + need, 0, room - need);
        check_call(what, length, room, LEVZHADA_ACCEPTED, 0, need);
    }
}

/* Either of them, with none of out, a byte too few, enough and more; the text is unchanged. All of it counts as one check. */
static void check_text(const char *what, const void *text, size_t length, size_t at, const void *characters, size_t need) {
    size_t rooms[] = {0, need - (need > 0), need, need + 3};
    put_text(text, length);
    for (size_t i = 0; i < sizeof rooms / sizeof *rooms; i++)
        if (at == NONE)
            check_accepted(what, length, rooms[i], characters, need);
        else
            check_refused(what, length, rooms[i], at);
    check(what, memcmp(text_end - length, text, length) == 0, 1);
    close_vector();
}

/* ---- the examples, with out of every length */

static const char *const names[] = {"&amp;", "&quot;", "&lt;", "&gt;"};
static const char characters_of[] = "&\"<>";
enum { NAMES = 4 };

static const struct {
    const char *text;
    size_t at;
    const char *characters;
} examples[] = {
    {"&quot;&lt;&gt;&amp;", NONE, "\"<>&"},
    {"&amp;lt;", NONE, "&lt;"},
    {"&amp;amp;amp;", NONE, "&amp;amp;"},
    {"a&amp;b", NONE, "a&b"},
    {"", NONE, ""},
    {"no name at all", NONE, "no name at all"},
    {"<p>\"bare\"</p> amp; lt;", NONE, "<p>\"bare\"</p> amp; lt;"},
    {"&amp;&x;", 5, ""},
    {"aaaa&", 4, ""},
    {"&&amp;", 0, ""},
    {"&amp", 0, ""},
    {"&AMP;", 0, ""},
    {"&#38;", 0, ""},
    {"&apos;", 0, ""},
    {"a long text &lt;&gt; with &quot;names&quot; &amp before its end", 44, ""},
};
enum { EXAMPLES = sizeof examples / sizeof *examples };

static void check_examples(void) {
    for (size_t k = 0; k < EXAMPLES; k++) {
        const char *text = examples[k].text, *characters = examples[k].characters;
        size_t length = strlen(text);
        put_text(text, length);
        for (size_t room = 0; room <= length + 20; room++) {
            if (examples[k].at == NONE)
                check_accepted(text, length, room, characters, strlen(characters));
            else
                check_refused(text, length, room, examples[k].at);
            close_vector();
        }
    }
}

/* ---- calls with their answers */

/* Escaping the characters of an accepted text gives it back exactly where it has no bare " < or >. */
static void check_escape(const char *what, size_t length, size_t need) {
    static uint8_t again[6 * 4096];
    const uint8_t *text = text_end - length;
    int is_bare = memchr(text, '"', length) || memchr(text, '<', length) || memchr(text, '>', length);
    if (need > 4096)
        end_badly("a text is too long");
    levzhada_answer a = levzhada_escape(wanted, need, again, sizeof again);
    check(what, a.number == LEVZHADA_ACCEPTED && a.length == length && memcmp(again, text, length) == 0, !is_bare);
}

static size_t calls(void) {
    static uint8_t text[LARGEST];
    size_t n;
    open_vectors("tests/vectors/unescape.in", "tests/vectors/unescape.out");
    for (n = 0; more(inputs); n++) {
        char what[32], line[64];
        size_t room = take_number(inputs), length = take_input(text, LARGEST), number, second, visits, written;
        take_line(answers, line, sizeof line);
        if (sscanf(line, "%zu %zu %zu %zu", &number, &second, &visits, &written) != 4 || visits != 0 || room > ROOM)
            end_badly("a call is wrong");
        take(answers, wanted, room);
        take_line_end(answers);
        sprintf(what, "call %zu", n);
        put_text(text, length);
        check_call(what, length, room, number, second, written);
        if (number == LEVZHADA_ACCEPTED)
            check_escape(what, length, written);
        close_vector();
    }
    return n;
}

/* ---- names at every place */

/* So many plain bytes, a name as far as `part`, and plain bytes behind it. */
static void check_place(size_t before, size_t name, size_t part, size_t behind) {
    char text[PLACES + 8 + BEHIND], characters[sizeof text], what[64];
    size_t length = before + part + behind, need = before + 1 + behind, is_whole = part == strlen(names[name]);
    memset(text, 'x', sizeof text);
    memset(characters, 'x', sizeof characters);
    memcpy(text + before, names[name], part);
    characters[before] = characters_of[name];
    sprintf(what, "%zu bytes, %zu of %s, %zu bytes", before, part, names[name], behind);
    check_text(what, text, length, is_whole ? NONE : before, characters, is_whole ? need : length);
}

/* Two ampersands that start no name: the first is told. */
static void check_first(size_t one, size_t other) {
    char text[PLACES + 1], what[64];
    memset(text, ';', sizeof text);
    text[one] = text[other] = '&';
    sprintf(what, "ampersands at %zu and %zu", one, other);
    check_text(what, text, sizeof text, one, "", sizeof text);
}

static void places(void) {
    for (size_t before = 0; before < PLACES; before++) {
        for (size_t name = 0; name < NAMES; name++)
            for (size_t part = 1; part <= strlen(names[name]); part++)
                for (size_t behind = 0; behind < BEHIND; behind += behind == 2 ? 5 : behind == 9 ? 8 : 1)
                    check_place(before, name, part, behind);
        for (size_t other = before; other < PLACES; other++)
            check_first(before, other);
    }
}

/* ---- every byte in the place of every byte of a name */

static size_t name_at(const char *text) {
    size_t name = 0;
    while (name < NAMES && strncmp(text, names[name], strlen(names[name])) != 0)
        name++;
    return name;
}

static void every_byte(void) {
    for (size_t name = 0; name < NAMES; name++)
        for (size_t place = 0; place < strlen(names[name]); place++)
            for (int byte = 0; byte < 256; byte++) {
                char text[16], what[64];
                size_t length = (size_t)sprintf(text, "ab%scd", names[name]), found;
                text[2 + place] = (char)byte;
                sprintf(what, "%s with %d at %zu", names[name], byte, place);
                found = name_at(text + 2);
                if (found < NAMES) {
                    char characters[] = {'a', 'b', characters_of[found], 'c', 'd'};
                    check_text(what, text, length, NONE, characters, sizeof characters);
                } else {
                    check_text(what, text, length, place == 0 ? NONE : 2, text, length);
                }
            }
}

/* ---- what was escaped */

/* xorshift64 */
static uint64_t state = 88172645463325252u;

static size_t below(size_t n) {
    state ^= state << 13;
    state ^= state >> 7;
    state ^= state << 17;
    return state % n;
}

/* Any bytes, of a hundred so many with a name. */
static void check_any(size_t length, size_t named) {
    uint8_t any[LENGTHS], escaped[6 * LENGTHS];
    char what[64];
    for (size_t i = 0; i < length; i++)
        any[i] = below(100) < named ? (uint8_t)characters_of[below(NAMES)] : (uint8_t)below(256);
    levzhada_answer a = levzhada_escape(any, length, escaped, sizeof escaped);
    sprintf(what, "%zu bytes, %zu of 100 escaped", length, named);
    check(what, a.number, LEVZHADA_ACCEPTED);
    check_text(what, escaped, a.length, NONE, any, length);
}

/* ---- long texts */

static void long_texts(void) {
    static uint8_t text[LARGEST], characters[LARGEST];
    for (size_t name = 0; name < NAMES; name++) {
        size_t size = strlen(names[name]), count = LARGEST / size, length = count * size;
        for (size_t i = 0; i < count; i++)
            memcpy(text + i * size, names[name], size);
        memset(characters, characters_of[name], count);
        check_text("a name, many times", text, length, NONE, characters, count);
        check_text("the last one cut short", text, length - 1, length - size, characters, length - 1);
    }
    memset(text, 0, sizeof text);
    check_text("NULs", text, LARGEST, NONE, text, LARGEST);
    text[LARGEST - 1] = '&';
    check_text("an ampersand behind NULs", text, LARGEST, LARGEST - 1, text, LARGEST);
}

/* ---- MinimalHtml texts */

/* <p>a&b</p> and, with links, <a href=u><img alt=..></a>, whose alt is not escaped. */
static void check_page(const char *alt, size_t at, const char *characters) {
    char sheet[1024];
    uint8_t text[64] = {0}, work[64] = {0};
    size_t length = (size_t)sprintf(sheet,
                                    "       5       2%8zu       0\n"
                                    "       0       1       0       0       4       0       0       0\n"
                                    "       1       1       0       4       1       0       0       0\n"
                                    "       2       3       0       0       0       5       3       0\n"
                                    "       1       1       0       5       1       0       0       1\n"
                                    "       2       1       0       8       3       0       0       1\n"
                                    "      11       4      15       1\n"
                                    "      16       3      19%8zu\n"
                                    "bodypa&bimghrefualt%s",
                                    19 + strlen(alt), strlen(alt), alt);
    levzhada_answer a = levzhada_extract(bytes(sheet), length, bytes("20111011000\n"), LINE, text, sizeof text, work, sizeof work);
    check(alt, a.number, LEVZHADA_ACCEPTED);
    check_text(alt, text, a.length, at, characters, at == NONE ? strlen(characters) : a.length);
}

int main(void) {
    size_t made;
    make_fence();
    made = calls();
    check_examples();
    places();
    every_byte();
    for (size_t length = 0; length <= LENGTHS; length++)
        for (size_t named = 0; named <= 100; named += 20)
            check_any(length, named);
    long_texts();
    check_page("b", NONE, "<p>a&b</p>\n\n<a href=\"u\">b</a>");
    check_page("&lt;", NONE, "<p>a&b</p>\n\n<a href=\"u\"><</a>");
    check_page("<b>&", 31, "");
    return close_vectors(made, CALLS);
}
