/* Damaged sheets: an extraction refuses exactly what the verdict refuses, with its numbers, and then leaves both buffers as they were. The pool
   of every second sheet has a byte that no range covers and that is not UTF-8. */
#include "check.h"

enum { ROUNDS = 200000, FILL = 0xA5 };

#define STANDING "10110011000\n"

static const char page[] = "       5       2      30       0\n"
                           "       0       1       0       0       4       0       0       0\n"
                           "       1       1       0       4       1       0       0       2\n"
                           "       2       3       0       0       0      22       5       0\n"
                           "       1       1       1      14       2       0       0       0\n"
                           "       1       8       0       0       0      27       2       0\n"
                           "       5       5      10       4\n"
                           "      16       2      18       4\n"
                           "bodypclasswideemidmain\xC3\xBC"
                           "b 1--.";

/* xorshift64 */
static uint64_t state = 88172645463325252u;

static uint64_t next(void) {
    state ^= state << 13;
    state ^= state >> 7;
    state ^= state << 17;
    return state;
}

static int is_filled(const uint8_t *s, size_t length) {
    for (size_t i = 0; i < length; i++)
        if (s[i] != FILL)
            return 0;
    return 1;
}

int main(void) {
    static const char likely[] = "0123456789 \n\xC3\xBC\x80z";
    enum { LENGTH = sizeof page - 1 };
    uint8_t sheet[LENGTH], out[256], work[64];
    size_t met[40] = {0}, accepted = 0, unlike = 0, touched = 0;
    for (int round = 0; round < ROUNDS; round++) {
        memcpy(sheet, page, LENGTH);
        if (round % 2)
            sheet[LENGTH - 1] = 0xFF;
        for (uint64_t hits = next() % 3; hits > 0; hits--)
            sheet[next() % LENGTH] = next() % 4 ? (uint8_t)likely[next() % (sizeof likely - 1)] : (uint8_t)next();
        size_t length = next() % 50 ? LENGTH : next() % LENGTH;
        memset(out, FILL, sizeof out);
        memset(work, FILL, sizeof work);
        levzhada_answer verdict = levzhada_check(sheet, length);
        levzhada_answer answer = levzhada_extract(sheet, length, bytes(STANDING), LINE, out, sizeof out, work, sizeof work);
        if (verdict.number == LEVZHADA_ACCEPTED) {
            accepted++;
            unlike += answer.number != LEVZHADA_ACCEPTED;
            continue;
        }
        met[verdict.number]++;
        unlike += answer.number != verdict.number || answer.second != verdict.second || answer.visits != 0 || answer.length != 0;
        touched += !is_filled(out, sizeof out) || !is_filled(work, sizeof work);
    }
    check("sheets that the verdict and an extraction tell apart", unlike, 0);
    check("buffers touched by a refusal", touched, 0);
    check("some sheets are accepted", accepted > 0, 1);
    for (size_t number = LEVZHADA_WRONG_LENGTH; number <= LEVZHADA_NOT_UTF8; number++)
        check("each number is met", met[number] > 0, 1);
    return close_checks();
}
