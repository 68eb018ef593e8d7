/* Levzhada: reads a web page's tree sheet.
 *
 * docs/SHEET.md lays down the sheet, the options, the limits and the numbers. Each function answers in these numbers and comes back for
 * every input: nothing is demanded of the bytes. What holds for every call, as in C:
 * - a pointer is not NULL, also where its length is 0, and so many bytes may be read there (written, where it is not const);
 * - what a call writes overlaps nothing else that the call is given;
 * - nothing else changes the bytes while the call runs;
 * - the stack has room for the call (LEVZHADA_STACK below).
 *
 * Link with liblevzhada.a, which `bash .ci/archive` writes to target/staticlib/.
 */
#ifndef LEVZHADA_H
#define LEVZHADA_H

#include <stddef.h>
#include <stdint.h>

#ifdef __cplusplus
extern "C" {
#endif

#define LEVZHADA_VERSION "0.6.0"
#define LEVZHADA_VERSION_MAJOR 0
#define LEVZHADA_VERSION_MINOR 6
#define LEVZHADA_VERSION_PATCH 0

/* The numbers, and what the second number is with each. The header is line 0, row 0 line 1. */
#define LEVZHADA_ACCEPTED 0 /* as each function says */

/* The sheet is wrong. */
#define LEVZHADA_WRONG_LENGTH 11 /* the length that the sheet should have: 33 where it has no whole header, else what the header counts */
#define LEVZHADA_WRONG_FORMAT 12 /* the line that has a wrong field or a wrong end */
#define LEVZHADA_WRONG_COUNTS 13 /* 0: a count is out of range, or the root is no row */
#define LEVZHADA_WRONG_TREE 14   /* the line that does not fit the tree; 0 for the root */
#define LEVZHADA_WRONG_KIND 15   /* the line whose kind or skip is wrong, or that has what its kind may not have */
#define LEVZHADA_WRONG_RANGE 16  /* the line with a range past the pool; 0 where the attribute counts do not sum up */
#define LEVZHADA_NOT_UTF8 17     /* the line with a range that is not UTF-8 */

/* The page is past a limit. */
#define LEVZHADA_TOO_MANY_LIST_LEVELS 21 /* the line where list levels pass 1,024 */
#define LEVZHADA_TOO_MANY_OPEN_ROWS 22   /* the line where open table rows pass 1,024 */

/* What the call was given beside the sheet is too short, wrong or not there. */
#define LEVZHADA_WORK_TOO_SHORT 31 /* the length that work needs */
#define LEVZHADA_OUT_TOO_SHORT 32  /* the length that out needs */
#define LEVZHADA_WRONG_OPTIONS 33  /* 0 */
#define LEVZHADA_INPUT_TOO_LONG 34 /* of the program `desk` alone, no function gives it */
#define LEVZHADA_NO_ROW 35         /* the row that is not there or, for the link measure, is no element */
#define LEVZHADA_NO_PATTERN 36     /* the pattern that is not there */

/* An escaped text that is read back is wrong, or out is too short for it. */
#define LEVZHADA_NO_ENTITY 51              /* the offset of the ampersand that starts none of the four names */
#define LEVZHADA_UNESCAPE_OUT_TOO_SHORT 52 /* the length that out needs */

/* Out is too short for the visible text of a row. */
#define LEVZHADA_VISIBLE_TEXT_OUT_TOO_SHORT 53 /* the length that out needs: the greatest that the text has on the way */

/* The stack that a call takes, in bytes below its caller's frame: at most this. Measured and rounded up, not proved: tests/c/stack.c found
 * 356,984 for levzhada_extract from 257 rows on and 23,448 up to 256 rows, 4,584 for levzhada_measure and 1,928 or less for the others. */
#define LEVZHADA_STACK 393216       /* any call, any sheet */
#define LEVZHADA_STACK_SMALL 65536  /* levzhada_extract, a sheet of up to 256 rows */
#define LEVZHADA_STACK_OTHERS 32768 /* every call but levzhada_extract */

/* An answer. A refusal has visits 0 and length 0. */
typedef struct {
    size_t number; /* LEVZHADA_ACCEPTED, or why the call was refused */
    size_t second; /* what goes with the number: a line, a row, a need, .. */
    size_t visits; /* of a text: the passes of the walk */
    size_t length; /* of a text: its bytes; of marks: how many were set */
} levzhada_answer;

/* An attribute's range. */
typedef struct {
    levzhada_answer answer; /* its length: the bytes of the value */
    size_t present;         /* 1: the row has the attribute, perhaps empty; 0: not */
    size_t at;              /* where the value starts in the pool; 0 where there is none */
} levzhada_range;

/* The outcomes of the link measure. */
#define LEVZHADA_MEASURE_NO_TEXT 0
#define LEVZHADA_MEASURE_TOO_LONG 1
#define LEVZHADA_MEASURE_NO_LINKS 2
#define LEVZHADA_MEASURE_SHARE 3

/* The link measure of an element. */
typedef struct {
    levzhada_answer answer; /* its second: the outcome, LEVZHADA_MEASURE_.. */
    size_t exceeds;         /* 1: the share exceeds the rule's ratio; 0: it does not, or there is none */
    double share;           /* link bytes by text bytes; 0 where there is none */
} levzhada_link_measure;

/* What is wrong with a sheet: LEVZHADA_ACCEPTED where nothing is, otherwise 11 to 17. */
levzhada_answer levzhada_check(const uint8_t *sheet, size_t sheet_length);

/* The single-row questions below come after the sheet's refusals; 35 with the row where the sheet has no such row. */

/* The parent of a row: second is the parent's row and length 1, or length 0 where there is none. */
levzhada_answer levzhada_parent(const uint8_t *sheet, size_t sheet_length, size_t row);

/* The first child of a row: as for the parent. */
levzhada_answer levzhada_first_child(const uint8_t *sheet, size_t sheet_length, size_t row);

/* The next sibling of a row: as for the parent. */
levzhada_answer levzhada_next_sibling(const uint8_t *sheet, size_t sheet_length, size_t row);

/* The first attribute of a row that has the name, byte for byte: where its value lies in the pool. */
levzhada_range levzhada_attribute(const uint8_t *sheet, size_t sheet_length, size_t row, const uint8_t *name, size_t name_length);

/* The length of a row's text content, runs of blanks collapsed. */
levzhada_answer levzhada_text_length(const uint8_t *sheet, size_t sheet_length, size_t row);

/* The link measure of a row by a rule, a ratio and a length limit (0: none); 35 also where the row is no element. The filters'
 * own rules are (0.2, 0), (0.2, 500), (0.6, 800) and (0.6, 1500). */
levzhada_link_measure levzhada_measure(const uint8_t *sheet, size_t sheet_length, size_t row, double ratio, size_t limit);

/* Whether a text matches one of the 21 patterns, 0 to 20: second is 1 for yes and 0 for no. 36 with the number of a pattern
 * that is not there. */
levzhada_answer levzhada_matches(size_t pattern, const uint8_t *text, size_t text_length);

/* The text of a page. options is the option line: eleven digits, the first for the formatting (0 Off, 1 Basic, 2 MinimalHtml), then 0
 * or 1 each for main_content, list_bullets, alt_texts, links, form_fields, comments, post_meta, hidden_elements, icons and missing_alt,
 * and LF; bytes behind it are not looked at. "10110011000\n" has the standing options.
 * With alt_texts and missing_alt an img or area that has no attribute alt is written as one with alt="[picture]"; an empty alt is there.
 * Refused, in this order: 33, the option line is wrong; 11 to 17, the sheet; 21 and 22 with the node's line, list levels or open
 * rows pass 1,024; 31 and then 32 with the need, work or out too short.
 * After a text out holds length bytes of it and zeros behind them, and work is all zero. After a refusal both are unchanged, but
 * work is all zero after 32. */
levzhada_answer levzhada_extract(const uint8_t *sheet, size_t sheet_length, const uint8_t *options, size_t options_length, uint8_t *out,
                                 size_t out_length, uint8_t *work, size_t work_length);

/* Sets skip to 1, in the sheet itself, on every element below the root whose name stands in the lists that the Rust takes out under
 * these options: script, style, iframe, frame, template; with alt_texts off object, video, audio, embed, img, area, svg, figcaption,
 * figure; with noscript off noscript; with form_fields off textarea, input, button, select, option, label. Elements below such ones too;
 * never the root, nor what stands above or beside it. Names are compared byte for byte: SCRIPT is none of them.
 * options is the option line, as for levzhada_extract; its other options mark nothing. noscript stands in no line: 0 is off, any other
 * number on.
 * length is the number of marks that were set. A row that is marked already stays so and is not counted: the same call again sets
 * none. Nothing but the skip fields of the rows that are counted changes, and the sheet is accepted as before.
 * Refused, in this order: 33, the option line is wrong; 11 to 17, the sheet. After a refusal the sheet is unchanged. */
levzhada_answer levzhada_mark(uint8_t *sheet, size_t sheet_length, const uint8_t *options, size_t options_length, size_t noscript);

/* The visible text of a row, as node_format_visible_text (serialize.rs) gives it of the same tree. It is another text than that of
 * levzhada_extract: marks, options and the sheet's root have no say in it, and any row may be asked. A text or comment row has an empty
 * text. What is below the row is gone over in order:
 * - a text is added with each run of TAB, LF, FF, CR and space as one space (U+000B stays) and, where such a blank or nothing stands before
 *   it, without the White_Space of Unicode at its start, U+000B and U+00A0 too;
 * - a block takes away such blanks at the end and adds LF, a p LF LF: at its beginning and, if it has no next sibling, at its end. Blocks
 *   are address article aside blockquote canvas dd div dl dt fieldset figcaption figure footer form h1 h2 h3 h4 h5 h6 header hr li main nav
 *   ol p pre section table tfoot ul video;
 * - of a pre the text content is added as it stands, and it is a block at its end alone; a br adds LF, and what is below it is left out;
 *   script, style and noscript are left out, and comments, though these are next siblings too.
 * The row itself is no block, no pre and no br. Nothing is taken away at the end of the text.
 * Refused, in this order: 11 to 17, the sheet; 35 with the row where the sheet has no such row; 53 with the need, out too short. The need
 * may be more than length, since blanks are written and taken away again.
 * After a text out holds length bytes of it and zeros behind them, after a refusal it is unchanged. */
levzhada_answer levzhada_visible_text(const uint8_t *sheet, size_t sheet_length, size_t row, uint8_t *out, size_t out_length);

/* Each run of blanks as one space: out holds length bytes of text and zeros behind them. 32 with the need, and out unchanged,
 * where out is too short. */
levzhada_answer levzhada_collapse(const uint8_t *text, size_t text_length, uint8_t *out, size_t out_length);

/* & < > and " as entities: out as for collapse. */
levzhada_answer levzhada_escape(const uint8_t *text, size_t text_length, uint8_t *out, size_t out_length);

/* The inverse of escape: the names &amp; &quot; &lt; and &gt;, in this spelling and with the semicolon, become & " < and >, and every other
 * byte is copied, UTF-8 or not. What a name has become is not read again: &amp;lt; gives &lt;. out as for collapse; text_length bytes of it
 * are always enough.
 * Refused, in this order: 51 with the offset, in bytes from 0, of the first ampersand that starts none of the four names, looked for in the
 * whole text (&amp and &AMP; and &#38; and &apos; are no names); 52 with the need, out too short. After a refusal out is unchanged.
 * A MinimalHtml text that has an unescaped ampersand, as that of an alt in an `a` with links, is 51, unless a name starts there. */
levzhada_answer levzhada_unescape(const uint8_t *text, size_t text_length, uint8_t *out, size_t out_length);

#ifdef __cplusplus
}
#endif

#endif
