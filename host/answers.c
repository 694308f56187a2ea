/* Every answer of document 01's table and every cause of answer 5 through the
 * C border, with guard words around the room and guard bytes around the
 * numbers. */
#include "lozhbinor.h"

#include <inttypes.h>
#include <stdio.h>
#include <stdlib.h>
#include <string.h>

enum { GUARD = 4, ROOM = 8, SPARE = 3 };

static int32_t words[GUARD + ROOM + GUARD];
static uint8_t bytes[GUARD + LOZHBINOR_MATCH_BYTES + SPARE + GUARD];
static int faults;

static void check(int good, const char *what)
{
    if (!good) {
        printf("WRONG: %s\n", what);
        faults++;
    }
}

static void clear(void)
{
    for (size_t i = 0; i < sizeof words / sizeof words[0]; i++)
        words[i] = -77;
    memset(bytes, 0xA5, sizeof bytes);
}

/* Words outside the first `written` of the room, and bytes outside the first `filled`, are as they were. */
static void untouched(size_t written, size_t filled)
{
    for (size_t i = 0; i < sizeof words / sizeof words[0]; i++)
        if (i < GUARD || i >= GUARD + written)
            check(words[i] == -77, "a word outside the rows");
    for (size_t i = 0; i < sizeof bytes; i++)
        if (i < GUARD || i >= GUARD + filled)
            check(bytes[i] == 0xA5, "a byte outside the numbers");
}

static size_t parse(const char *text, int32_t *into)
{
    size_t n = 0;
    char *end;
    for (long x = strtol(text, &end, 10); end != text; x = strtol(text, &end, 10)) {
        into[n++] = (int32_t)x;
        text = end;
    }
    return n;
}

static void match_units(const char *m, const char *p, const int32_t *units, size_t count, uint32_t budget, size_t room, const char *expected)
{
    int32_t mw[64], pw[64];
    size_t mn = parse(m, mw), pn = parse(p, pw);
    char got[128];
    clear();
    uint32_t answer = lozhbinor_match(mw, mn, pw, pn, units, count, budget, words + GUARD, room, bytes + GUARD, LOZHBINOR_MATCH_BYTES + SPARE);
    const uint8_t *numbers = bytes + GUARD;
    snprintf(got, sizeof got, "%" PRIu64 " %" PRIu64 " %" PRIu64 " %" PRIu64 " %" PRIu64 " %" PRIu64, lozhbinor_number(numbers, 0),
             lozhbinor_number(numbers, 1), lozhbinor_number(numbers, 2), lozhbinor_number(numbers, 3), lozhbinor_number(numbers, 4),
             lozhbinor_number(numbers, 5));
    printf("match  %s\n", got);
    check(answer == lozhbinor_number(numbers, 0), "the call's answer is the first number");
    check(strcmp(got, expected) == 0, expected);
    untouched((size_t)lozhbinor_number(numbers, 4), LOZHBINOR_MATCH_BYTES);
}

/* Rows in the form that is picked; the words of the room are compared too. */
static void match_with(uint32_t form, uint32_t dialect, const char *m, const char *p, const char *t, size_t room, const char *expected, const char *rows)
{
    int32_t mw[64], pw[64], tw[64], rw[64];
    size_t mn = parse(m, mw), pn = parse(p, pw), tn = parse(t, tw), rn = parse(rows, rw);
    char got[128];
    clear();
    uint32_t answer = lozhbinor_match_with(form, dialect, mw, mn, pw, pn, tw, tn, 99, words + GUARD, room, bytes + GUARD, LOZHBINOR_MATCH_BYTES + SPARE);
    const uint8_t *numbers = bytes + GUARD;
    snprintf(got, sizeof got, "%" PRIu64 " %" PRIu64 " %" PRIu64 " %" PRIu64 " %" PRIu64 " %" PRIu64, lozhbinor_number(numbers, 0),
             lozhbinor_number(numbers, 1), lozhbinor_number(numbers, 2), lozhbinor_number(numbers, 3), lozhbinor_number(numbers, 4),
             lozhbinor_number(numbers, 5));
    printf("form %" PRIu32 ", dialect %" PRIu32 " %s\n", form, dialect, got);
    check(answer == lozhbinor_number(numbers, 0), "the call's answer is the first number");
    check(strcmp(got, expected) == 0, expected);
    check(rn == lozhbinor_number(numbers, 4) && memcmp(words + GUARD, rw, rn * sizeof *rw) == 0, rows);
    untouched((size_t)lozhbinor_number(numbers, 4), LOZHBINOR_MATCH_BYTES);
}

/* By rounds, over a table of so many words; a word behind it stays. */
static void rounds(uint32_t form, uint32_t dialect, const char *m, const char *p, const char *t, uint32_t budget, size_t table_words, size_t room,
                   const char *expected, const char *rows)
{
    static int32_t table[6 * LOZHBINOR_STATE_WORDS + 1];
    int32_t mw[64], pw[64], tw[64], rw[64];
    size_t mn = parse(m, mw), pn = parse(p, pw), tn = parse(t, tw), rn = parse(rows, rw);
    char got[128];
    clear();
    table[table_words] = -77;
    uint32_t answer =
        lozhbinor_rounds(form, dialect, mw, mn, pw, pn, tw, tn, budget, table, table_words, words + GUARD, room, bytes + GUARD, LOZHBINOR_MATCH_BYTES + SPARE);
    const uint8_t *numbers = bytes + GUARD;
    snprintf(got, sizeof got, "%" PRIu64 " %" PRIu64 " %" PRIu64 " %" PRIu64 " %" PRIu64 " %" PRIu64, lozhbinor_number(numbers, 0),
             lozhbinor_number(numbers, 1), lozhbinor_number(numbers, 2), lozhbinor_number(numbers, 3), lozhbinor_number(numbers, 4),
             lozhbinor_number(numbers, 5));
    printf("rounds, form %" PRIu32 ", dialect %" PRIu32 " %s\n", form, dialect, got);
    check(answer == lozhbinor_number(numbers, 0), "the call's answer is the first number");
    check(strcmp(got, expected) == 0, expected);
    check(rn == lozhbinor_number(numbers, 4) && memcmp(words + GUARD, rw, rn * sizeof *rw) == 0, rows);
    check(table[table_words] == -77, "a word behind the table");
    untouched((size_t)lozhbinor_number(numbers, 4), LOZHBINOR_MATCH_BYTES);
}

static void match(const char *m, const char *p, const char *t, uint32_t budget, size_t room, const char *expected)
{
    int32_t tw[64];
    size_t tn = parse(t, tw);
    match_units(m, p, tw, tn, budget, room, expected);
}

static void review(const char *m, const char *p, int32_t cap, const char *expected)
{
    int32_t mw[64], pw[64];
    size_t mn = parse(m, mw), pn = parse(p, pw);
    char got[128];
    clear();
    uint32_t answer = lozhbinor_review(mw, mn, pw, pn, cap, bytes + GUARD, LOZHBINOR_REVIEW_BYTES);
    const uint8_t *numbers = bytes + GUARD;
    snprintf(got, sizeof got, "%" PRIu64 " %" PRIu64 " %" PRIu64, lozhbinor_number(numbers, 0), lozhbinor_number(numbers, 1), lozhbinor_number(numbers, 2));
    printf("review %s\n", got);
    check(answer == lozhbinor_number(numbers, 0), "the call's answer is the first number");
    check(strcmp(got, expected) == 0, expected);
    untouched(0, LOZHBINOR_REVIEW_BYTES);
}

static void review_with(uint32_t dialect, const char *m, const char *p, int32_t cap, const char *expected)
{
    int32_t mw[64], pw[64];
    size_t mn = parse(m, mw), pn = parse(p, pw);
    char got[128];
    clear();
    uint32_t answer = lozhbinor_review_with(dialect, mw, mn, pw, pn, cap, bytes + GUARD, LOZHBINOR_REVIEW_BYTES);
    struct lozhbinor_reviewed r = lozhbinor_reviewed_of(bytes + GUARD);
    snprintf(got, sizeof got, "%" PRIu32 " %zu %" PRIu32, r.answer, r.place, r.count);
    printf("review in dialect %" PRIu32 " %s\n", dialect, got);
    check(answer == r.answer, "the call's answer is the first number");
    check(strcmp(got, expected) == 0, expected);
    untouched(0, LOZHBINOR_REVIEW_BYTES);
}

static void too_short(void)
{
    static const int32_t one[] = {1}, seven[] = {0, 7};
    for (size_t n = 0; n < LOZHBINOR_MATCH_BYTES; n++) {
        clear();
        check(lozhbinor_match(one, 1, seven, 1, seven, 2, 9, words + GUARD, ROOM, bytes + GUARD, n) == LOZHBINOR_SHORT, "match 24");
        check(lozhbinor_rounds(9, 9, one, 1, seven, 1, seven, 2, 9, NULL, 0, words + GUARD, ROOM, bytes + GUARD, n) == LOZHBINOR_SHORT, "rounds 24");
        untouched(0, 0);
    }
    for (size_t n = 0; n < LOZHBINOR_REVIEW_BYTES; n++) {
        clear();
        check(lozhbinor_review(one, 1, seven, 1, 3, bytes + GUARD, n) == LOZHBINOR_SHORT, "review 24");
        check(lozhbinor_review_with(9, one, 1, seven, 1, 3, bytes + GUARD, n) == LOZHBINOR_SHORT, "review in a dialect 24");
        check(lozhbinor_room(9, one, 1, seven, 1, 3, 8, bytes + GUARD, n) == LOZHBINOR_SHORT, "room 24");
        untouched(0, 0);
    }
    printf("match, rounds, review and room 24\n");
}

static void room(uint32_t form, const char *m, const char *p, int32_t cap, uint32_t longest, const char *expected)
{
    int32_t mw[64], pw[64];
    size_t mn = parse(m, mw), pn = parse(p, pw);
    char got[128];
    clear();
    uint32_t answer = lozhbinor_room(form, mw, mn, pw, pn, cap, longest, bytes + GUARD, LOZHBINOR_ROOM_BYTES);
    struct lozhbinor_roomed r = lozhbinor_roomed_of(bytes + GUARD);
    snprintf(got, sizeof got, "%" PRIu32 " %zu %" PRIu64, r.answer, r.place, r.words);
    printf("room   %s\n", got);
    check(answer == r.answer, "the call's answer is the first number");
    check(strcmp(got, expected) == 0, expected);
    untouched(0, LOZHBINOR_ROOM_BYTES);
}

/* Slices of no words and null pointers: refused as every other words, and a match with no room. */
static void nulls(void)
{
    static const int32_t integer[] = {1}, wildcard[] = {0}, seven[] = {0, 7};
    clear();
    check(lozhbinor_match(NULL, 0, NULL, 0, NULL, 0, 1000, NULL, 0, bytes + GUARD, LOZHBINOR_MATCH_BYTES) == LOZHBINOR_MATCHER, "no matcher at null");
    check(lozhbinor_match(integer, 1, NULL, 0, NULL, 0, 1000, NULL, 0, bytes + GUARD, LOZHBINOR_MATCH_BYTES) == LOZHBINOR_PATTERN, "no pattern at null");
    check(lozhbinor_match(integer, 1, wildcard, 1, NULL, 0, 1000, NULL, 0, bytes + GUARD, LOZHBINOR_MATCH_BYTES) == LOZHBINOR_TARGET, "no target at null");
    check(lozhbinor_match(integer, 1, wildcard, 1, seven, 2, 1000, NULL, 0, bytes + GUARD, LOZHBINOR_MATCH_BYTES) == LOZHBINOR_DONE, "no room at null");
    check(lozhbinor_matched_of(bytes + GUARD).rows == 1, "the row of no words");
    check(lozhbinor_match(integer, 1, wildcard, 1, seven, 2, 1000, NULL, 0, NULL, 0) == LOZHBINOR_SHORT, "no numbers at null");
    check(lozhbinor_review(NULL, 0, NULL, 0, 8, NULL, 0) == LOZHBINOR_SHORT, "review with no numbers at null");
}

int main(void)
{
    static const int32_t too_many[1025];
    check(lozhbinor_version() == LOZHBINOR_VERSION, "the version of the library is that of the header");
    nulls();
    match("3 1", "5 1 0 5 3 0 0 0", "1 3 0 2 0 8 0 2", 1000, ROOM, "0 0 2 22 4 0");
    match("3 4 2 1 1", "5 7 2 1 0 1 1 5 7 2 3 0 0 3 1 1 0", "1 3 2 2 0 1 0 4 2 2 0 2 0 5 2 2 0 1 0 5", 1000, ROOM, "0 0 1 36 4 0");
    match("9", "0", "0 7", 1000, ROOM, "1 0 0 0 0 0");
    match("3 1", "5 1 0 10 5 3 0 0 0", "1 3 0 2 0 8 0 2", 1000, ROOM, "0 0 1 25 2 0");
    match("3 1", "5 8 1 0 9 2 4 2 9 0", "1 3 0 4 0 7 0 9", 1000, ROOM, "0 0 2 25 4 0");
    match("1", "11", "0 7", 1000, ROOM, "2 0 0 0 0 0");
    match("1", "1 5", "0 7", 1000, ROOM, "3 0 0 0 0 0");
    match("1", "9 0 1 0", "0 7", 1000, ROOM, "3 2 0 0 0 0");
    match("1", "4", "0 7", 1000, ROOM, "4 0 0 0 0 0");
    match_units("1", "0", too_many, 1025, 1000, ROOM, "5 1024 0 0 0 1");
    match("1", "0", "9 0", 1000, ROOM, "5 0 0 0 0 2");
    match("2 1", "0", "1 65", 1000, ROOM, "5 1 0 0 0 3");
    match("0", "0", "1 1 1 1 1 1 1 1 1 1 1 1 1 1 1 1 1 0", 1000, ROOM, "5 16 0 0 0 4");
    match("1", "0", "0", 1000, ROOM, "5 1 0 0 0 5");
    match("1", "0", "0 7 9", 1000, ROOM, "5 2 0 0 0 6");
    match("4 2 1 1", "0", "2 5", 1000, ROOM, "5 1 0 0 0 7");
    match("1", "0", "1 0", 1000, ROOM, "6 0 0 0 0 0");
    match("3 1", "5 1 0 5 3 0 0 0", "1 3 0 2 0 8 0 2", 9, ROOM, "7 0 1 9 2 0");
    match("3 1", "5 1 0 5 3 0 0 0", "1 3 0 2 0 8 0 2", 1000, 3, "8 0 1 21 2 0");
    match_with(2, 1, "3 1", "5 1 0 5 3 0 0 0", "1 3 0 2 0 8 0 2", ROOM, "0 0 2 22 6 0", "2 0 0 6 0 0");
    match_with(2, 1, "3 1", "5 1 0 5 3 0 0 0", "1 3 0 2 0 8 0 2", 5, "8 0 1 21 3 0", "2 0 0");
    match_with(2, 1, "2 1", "5 0 1 0", "1 1 0 7", ROOM, "0 0 1 6 3 0", "0 0 0");
    match_with(2, 1, "0", "1 0", "1 3 0 2 0 8 0 2", ROOM, "0 0 1 2 3 0", "0 7 0");
    match_with(1, 1, "3 1", "5 1 0 5 3 0 0 0", "1 3 0 2 0 8 0 2", ROOM, "0 0 2 22 4 0", "0 2 0 2");
    match_with(0, 1, "9", "0", "0 7", ROOM, "20 0 0 0 0 0", "");
    match_with(3, 1, "3 1", "5 1 0 5 3 0 0 0", "1 3 0 2 0 8 0 2", ROOM, "20 0 0 0 0 0", "");
    match_with(1, 2, "3 1", "5 1 0 5 3 0 0 0", "1 3 0 2 0 8 0 2", ROOM, "0 0 1 13 2 0", "0 2");
    match_with(2, 2, "3 1", "5 1 0 0", "1 3 0 2 0 8 0 2", ROOM, "0 0 2 11 6 0", "2 0 0 4 0 0");
    match_with(1, 2, "3 0", "5 6 0 0 0", "1 0", ROOM, "4 0 0 0 0 0", "");
    match_with(1, 3, "9", "0", "0 7", ROOM, "22 0 0 0 0 0", "");
    match_with(3, 3, "9", "0", "0 7", ROOM, "20 0 0 0 0 0", "");
    size_t state = LOZHBINOR_STATE_WORDS;
    rounds(1, 1, "3 1", "5 1 0 5 1 1 0", "1 3 0 1 0 2 0 3", 31, 6 * state, ROOM, "7 0 1 31 4 0", "0 1 0 2");
    rounds(1, 1, "3 1", "5 1 0 5 1 1 0", "1 3 0 1 0 2 0 3", 99, 6 * state, ROOM, "8 0 2 34 8 0", "0 1 0 2 0 2 0 1");
    rounds(1, 1, "3 1", "5 1 0 5 1 1 0", "1 3 0 1 0 2 0 3", 99, 6 * state - 1, ROOM, "21 0 0 14 0 0", "");
    rounds(1, 1, "3 1", "5 1 0 5 1 1 0", "1 3 0 1 0 2 0 3", 14, 6 * state - 1, ROOM, "7 0 0 14 0 0", "");
    rounds(1, 1, "2 1", "6 1 0 1 1", "1 1 0 1", 0, 0, ROOM, "7 0 0 0 0 0", "");
    rounds(1, 1, "2 1", "6 1 0 1 1", "1 1 0 1", 99, state - 1, ROOM, "21 0 0 0 0 0", "");
    rounds(1, 1, "9", "0", "0 7", 99, state, ROOM, "1 0 0 0 0 0", "");
    rounds(1, 2, "3 1", "5 1 0 5 3 0 0 0", "1 3 0 2 0 8 0 2", 99, 6 * state, ROOM, "0 0 1 13 2 0", "0 2");
    rounds(2, 2, "3 1", "5 1 0 0", "1 3 0 2 0 8 0 2", 99, 6 * state, ROOM, "0 0 2 11 6 0", "2 0 0 4 0 0");
    rounds(1, 2, "3 1", "5 1 0 5 1 1 0", "1 3 0 1 0 1 0 2", 99, 6 * state, ROOM, "8 0 2 22 8 0", "0 1 0 1 0 2 0 1");
    rounds(1, 1, "3 1", "5 1 0 0", "1 6 0 7 0 7 0 7 0 7 0 7 0 7", 99, 5 * state, ROOM, "21 0 0 1 0 0", "");
    rounds(1, 2, "3 1", "5 1 0 0", "1 6 0 7 0 7 0 7 0 7 0 7 0 7", 99, 5 * state, ROOM, "0 0 1 6 2 0", "0 7");
    rounds(1, 2, "3 0", "5 6 0 0 0", "1 0", 99, state, ROOM, "4 0 0 0 0 0", "");
    rounds(1, 3, "9", "0", "0 7", 99, state, ROOM, "22 0 0 0 0 0", "");
    rounds(3, 3, "9", "0", "0 7", 99, state, ROOM, "20 0 0 0 0 0", "");
    check(lozhbinor_marks((int32_t[]){0, -2, 1}) == 0x1FFFFFFFEu, "marks of two words' bits");
    review("3 1", "5 1 0 5 3 0 0 0", 3, "0 0 34");
    review("3 4 2 1 1", "5 7 2 1 0 1 1 5 7 2 3 0 0 3 1 1 0", 3, "0 0 55");
    review("3 1", "5 9 2 1 2 2 0", 3, "0 0 28");
    review("2 1", "10 4", 3, "0 0 4");
    review("2 1", "6 0 0", 3, "11 0 0");
    review("2 1", "6 0 0", 65, "11 0 0");
    review("1", "9 0 2 5", 3, "0 0 6");
    review("3 1", "5 1 0 5 3 0 0 0", 65, "9 0 0");
    review("3 1", "5 0 5 0 5 0 5 0 5 0 0", 64, "10 0 0");
    review_with(1, "3 1", "5 1 0 5 3 0 0 0", 3, "0 0 34");
    review_with(2, "3 1", "5 1 0 5 3 0 0 0", 3, "0 0 34");
    review_with(1, "3 0", "5 6 0 0 0", 3, "4 1 0");
    review_with(2, "3 0", "5 6 0 0 0", 3, "4 0 0");
    review_with(2, "2 3 4 2 1 0", "5 5 0 0 0", 3, "4 1 0");
    review_with(2, "2 0", "5 0 0", 3, "0 0 5");
    review_with(0, "9", "0", 3, "22 0 0");
    review_with(3, "3 1", "5 1 0 5 3 0 0 0", 3, "22 0 0");
    room(1, "3 1", "5 1 0 5 3 0 0 0", 3, 8, "0 0 48");
    room(2, "3 1", "5 1 0 5 3 0 0 0", 3, 8, "0 0 18");
    room(1, "3 1", "5 1 0 5 3 0 0 0", 3, 5000, "0 0 6144");
    room(1, "3 1", "5 1 0 1 1", 64, 130, "0 0 16640");
    room(1, "3 1", "5 0 0", 64, 130, "0 0 0");
    room(3, "9", "0", 3, 8, "20 0 0");
    room(1, "9", "0", 3, 8, "1 0 0");
    room(1, "2 1", "6 0 0", 3, 8, "11 0 0");
    room(1, "3 1", "5 1 0 5 3 0 0 0", 65, 8, "9 0 0");
    room(1, "3 1", "5 0 5 0 5 0 5 0 5 0 0", 64, 8, "10 0 0");
    too_short();
    printf("%d wrong\n", faults);
    return faults != 0;
}
