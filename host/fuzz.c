/* Random calls through the C border, each slice in pages of its own with a page
 * on either side that may not be touched: a read or a write outside a slice ends
 * the program.   fuzz CALLS [SEED]
 *
 * Half of the slices end where their page ends, half begin where it begins. What
 * a call answers is held to the header: an answer of the table, what a refusal
 * leaves alone, no word after the words written, no byte after the numbers, and
 * the same again for the same call. */
#define _DEFAULT_SOURCE
#include "lozhbinor.h"
#include "random.h"

#include <inttypes.h>
#include <stdio.h>
#include <stdlib.h>
#include <string.h>

enum { FILL = -77, BOOK = 4 * LOZHBINOR_BLOCK_BYTES, STATES = 24, TABLE = 4 * STATES * LOZHBINOR_STATE_WORDS };

static void wrong(uint64_t call, const char *what)
{
    printf("fuzz: call %" PRIu64 ": %s\n", call, what);
    exit(1);
}

struct lent {
    struct pages matcher, pattern, target, room, numbers, book, table;
};

struct call {
    struct words m, p, t;
    uint32_t budget;
    size_t room;
    size_t bytes;
    int at_end;
};

/* One call; its numbers and its room are held to the header. */
static void match(uint64_t no, const struct lent *l, const struct call *c, uint8_t *kept)
{
    int32_t *room = c->room == 0 && c->at_end ? NULL : place_of(l->room, 4 * c->room, c->at_end);
    uint8_t *numbers = place_of(l->numbers, c->bytes, c->at_end);
    for (size_t i = 0; i < c->room; i++)
        room[i] = FILL;
    memset(numbers, 0xA5, c->bytes);
    uint32_t answer = lozhbinor_match(laid(l->matcher, &c->m, c->at_end), c->m.count, laid(l->pattern, &c->p, c->at_end), c->p.count,
                                      laid(l->target, &c->t, c->at_end), c->t.count, c->budget, room, c->room, numbers, c->bytes);
    size_t written = 0, filled = 0;
    if (c->bytes < LOZHBINOR_MATCH_BYTES) {
        if (answer != LOZHBINOR_SHORT)
            wrong(no, "the numbers are too short, and the answer is another");
    } else {
        struct lozhbinor_matched r = lozhbinor_matched_of(numbers);
        filled = LOZHBINOR_MATCH_BYTES;
        written = r.words;
        if (r.answer != answer || answer > LOZHBINOR_FULL)
            wrong(no, "an answer that match does not give");
        if (answer >= LOZHBINOR_MATCHER && answer <= LOZHBINOR_UNFIT && (r.rows || r.steps || r.words))
            wrong(no, "a refusal with rows, steps or words");
        if ((answer == LOZHBINOR_TARGET) != (r.cause != LOZHBINOR_CAUSE_NONE) || r.cause > LOZHBINOR_CAUSE_WIDTH)
            wrong(no, "a cause that does not belong to the answer");
        if (r.steps > c->budget || r.words > c->room)
            wrong(no, "more steps than the budget, or more words than the room");
    }
    for (size_t i = written; i < c->room; i++)
        if (room[i] != FILL)
            wrong(no, "a word after the words written");
    for (size_t i = filled; i < c->bytes; i++)
        if (numbers[i] != 0xA5)
            wrong(no, "a byte after the numbers");
    memcpy(kept, numbers, c->bytes);
}

/* The same in a dialect: 22 where there is no such, in dialect 1 what match gives, in dialect 2 no more rows and steps, or a misfit. */
static void match_in(uint64_t no, const struct lent *l, const struct call *c, uint32_t dialect, const uint8_t *plain, uint8_t *kept)
{
    uint8_t *numbers = place_of(l->numbers, LOZHBINOR_MATCH_BYTES, c->at_end);
    uint32_t answer = lozhbinor_match_with(LOZHBINOR_FORM_WORDS, dialect, laid(l->matcher, &c->m, c->at_end), c->m.count, laid(l->pattern, &c->p, c->at_end),
                                           c->p.count, laid(l->target, &c->t, c->at_end), c->t.count, c->budget, place_of(l->room, 4 * c->room, c->at_end),
                                           c->room, numbers, LOZHBINOR_MATCH_BYTES);
    struct lozhbinor_matched r = lozhbinor_matched_of(numbers), one = lozhbinor_matched_of(plain);
    if (r.answer != answer || (answer == LOZHBINOR_DIALECT) != (dialect < 1 || dialect > 2))
        wrong(no, "an answer that match in a dialect does not give");
    if (dialect == 1 && memcmp(numbers, plain, LOZHBINOR_MATCH_BYTES) != 0)
        wrong(no, "match in dialect 1 gives something else");
    if (dialect == 2 && one.answer == LOZHBINOR_DONE && answer != LOZHBINOR_MISFIT && (answer != LOZHBINOR_DONE || r.rows > one.rows || r.steps > one.steps))
        wrong(no, "more in dialect 2 than in dialect 1");
    memcpy(kept, numbers, LOZHBINOR_MATCH_BYTES);
}

static int refused(uint32_t answer)
{
    return answer == LOZHBINOR_DIALECT || (answer >= LOZHBINOR_MATCHER && answer <= LOZHBINOR_UNFIT);
}

/* By rounds in a dialect, over a table of some words: a refusal is match's there, and where both are done the rows take as many words and steps. */
static int rounds(uint64_t no, const struct lent *l, const struct call *c, const uint8_t *plain)
{
    uint8_t depth_first[LOZHBINOR_MATCH_BYTES];
    uint32_t dialect = below(4);
    match_in(no, l, c, dialect, plain, depth_first);
    size_t words = below(4) ? (size_t)TABLE / 4 : below(TABLE / 4 + 1);
    uint8_t *numbers = place_of(l->numbers, LOZHBINOR_MATCH_BYTES, c->at_end);
    int32_t *room = place_of(l->room, 4 * c->room, c->at_end);
    for (size_t i = 0; i < c->room; i++)
        room[i] = FILL;
    uint32_t answer = lozhbinor_rounds(LOZHBINOR_FORM_WORDS, dialect, laid(l->matcher, &c->m, c->at_end), c->m.count, laid(l->pattern, &c->p, c->at_end),
                                       c->p.count, laid(l->target, &c->t, c->at_end), c->t.count, c->budget, place_of(l->table, 4 * words, c->at_end), words,
                                       room, c->room, numbers, LOZHBINOR_MATCH_BYTES);
    struct lozhbinor_matched r = lozhbinor_matched_of(numbers), one = lozhbinor_matched_of(depth_first);
    if (r.answer != answer || (answer > LOZHBINOR_FULL && answer != LOZHBINOR_TABLE && !refused(answer)))
        wrong(no, "an answer that match by rounds does not give");
    if ((refused(answer) || refused(one.answer)) && memcmp(numbers, depth_first, LOZHBINOR_MATCH_BYTES) != 0)
        wrong(no, "a refusal by rounds is another");
    if (answer == LOZHBINOR_DONE && one.answer == LOZHBINOR_DONE && memcmp(numbers, depth_first, LOZHBINOR_MATCH_BYTES) != 0)
        wrong(no, "as many rows, steps and words by rounds");
    if (r.steps > c->budget || r.words > c->room)
        wrong(no, "more steps than the budget, or more words than the room");
    for (size_t i = r.words; i < c->room; i++)
        if (room[i] != FILL)
            wrong(no, "a word after the words written");
    return answer == LOZHBINOR_DONE;
}

/* The same in a dialect: 22 where there is no such, and in dialect 2 perhaps a misfit; else what review gives. */
static void review_in(uint64_t no, const struct lent *l, const struct call *c, int32_t cap, struct lozhbinor_reviewed one)
{
    uint8_t *numbers = place_of(l->numbers, LOZHBINOR_REVIEW_BYTES, c->at_end);
    uint32_t dialect = below(4);
    uint32_t answer = lozhbinor_review_with(dialect, laid(l->matcher, &c->m, c->at_end), c->m.count, laid(l->pattern, &c->p, c->at_end), c->p.count, cap, numbers,
                                            LOZHBINOR_REVIEW_BYTES);
    struct lozhbinor_reviewed r = lozhbinor_reviewed_of(numbers);
    int same = r.answer == one.answer && r.place == one.place && r.count == one.count;
    if (r.answer != answer || (answer == LOZHBINOR_DIALECT) != (dialect < 1 || dialect > 2))
        wrong(no, "an answer that review in a dialect does not give");
    if (answer != LOZHBINOR_DIALECT && !same && (dialect == 1 || answer != LOZHBINOR_MISFIT))
        wrong(no, "review in a dialect gives something else");
}

static void review(uint64_t no, const struct lent *l, const struct call *c)
{
    uint8_t *numbers = place_of(l->numbers, LOZHBINOR_REVIEW_BYTES, c->at_end);
    int32_t cap = (int32_t)below(70) - 2;
    uint32_t answer = lozhbinor_review(laid(l->matcher, &c->m, c->at_end), c->m.count, laid(l->pattern, &c->p, c->at_end), c->p.count, cap, numbers,
                                       LOZHBINOR_REVIEW_BYTES);
    struct lozhbinor_reviewed r = lozhbinor_reviewed_of(numbers);
    if (r.answer != answer || (answer > LOZHBINOR_MISFIT && (answer < LOZHBINOR_CAP || answer > LOZHBINOR_ALWAYS_TRUE)))
        wrong(no, "an answer that review does not give");
    if (answer != LOZHBINOR_DONE && r.count != 0)
        wrong(no, "a refusal with a count");
    review_in(no, l, c, cap, r);
}

/* The words that suffice; where there are so many, a match with them and review's count is stopped by neither. */
static int room(uint64_t no, const struct lent *l, const struct call *c)
{
    uint8_t *numbers = place_of(l->numbers, LOZHBINOR_MATCH_BYTES, c->at_end);
    const int32_t *m = laid(l->matcher, &c->m, c->at_end), *p = laid(l->pattern, &c->p, c->at_end), *t = laid(l->target, &c->t, c->at_end);
    uint32_t form = below(4), reviewed = lozhbinor_review(m, c->m.count, p, c->p.count, LOZHBINOR_CAP_LARGEST, numbers, LOZHBINOR_MATCH_BYTES);
    uint32_t budget = lozhbinor_reviewed_of(numbers).count;
    uint32_t answer =
        lozhbinor_room(form, m, c->m.count, p, c->p.count, LOZHBINOR_CAP_LARGEST, (uint32_t)c->t.count, numbers, LOZHBINOR_MATCH_BYTES);
    struct lozhbinor_roomed r = lozhbinor_roomed_of(numbers);
    if (r.answer != answer || answer != (form == 1 || form == 2 ? reviewed : LOZHBINOR_FORM) || (answer != LOZHBINOR_DONE && r.words != 0))
        wrong(no, "an answer that room does not give");
    if (answer != LOZHBINOR_DONE || r.words > WORDS || budget > 100000)
        return 0;
    answer = lozhbinor_match_with(form, 1 + below(2), m, c->m.count, p, c->p.count, t, c->t.count, budget, place_of(l->room, 4 * (size_t)r.words, c->at_end),
                                  (size_t)r.words, numbers, LOZHBINOR_MATCH_BYTES);
    if (answer == LOZHBINOR_BUDGET || answer == LOZHBINOR_FULL)
        wrong(no, "the words that suffice do not");
    return answer == LOZHBINOR_DONE;
}

/* A call on a book is answered from the table, and changes no byte where it is refused or only reads. */
static void answered(uint64_t no, uint32_t answer, const uint8_t *before, const uint8_t *book, size_t lent, int reads)
{
    if (answer != LOZHBINOR_DONE && (answer < LOZHBINOR_BOOK_CHECK || answer > LOZHBINOR_BOOK_LONG) && answer != LOZHBINOR_BOOK_NOT_LIVE)
        wrong(no, "an answer that a book does not give");
    if ((reads || answer != LOZHBINOR_DONE) && memcmp(before, book, lent) != 0)
        wrong(no, "a byte of a book changed");
}

/* A book of some blocks and bytes: some adds and withdrawals, some damage, and every call. Gives the live rules at its end. */
static uint64_t book(uint64_t no, const struct lent *l, const struct call *c)
{
    size_t lent = below(2) ? LOZHBINOR_BLOCK_BYTES * below(5) : below(BOOK + 1);
    uint8_t before[BOOK], *at = place_of(l->book, lent, c->at_end), *numbers = place_of(l->numbers, LOZHBINOR_RULE_BYTES, c->at_end);
    int32_t *words = place_of(l->room, 4 * LOZHBINOR_RULE_WORDS, c->at_end);
    const int32_t *m = laid(l->matcher, &c->m, c->at_end), *p = laid(l->pattern, &c->p, c->at_end);
    uint32_t used = 0;
    memset(at, 170, lent);
    for (int k = 0; k < 6; k++) {
        uint16_t badge = (uint16_t)below(5);
        memcpy(before, at, lent);
        if (below(4) == 0)
            answered(no, lozhbinor_book_withdraw(at, lent, used, badge, numbers, LOZHBINOR_BOOK_BYTES), before, at, lent, 0);
        else
            answered(no, lozhbinor_book_add(at, lent, used, (uint16_t)below(4), badge, below(4), m, c->m.count, p, c->p.count, numbers, LOZHBINOR_BOOK_BYTES),
                     before, at, lent, 0);
        used = (uint32_t)lozhbinor_number(numbers, LOZHBINOR_USED);
        if (lent > 0 && below(16) == 0)
            at[below((uint32_t)lent)] ^= (uint8_t)(1 + below(255));
        if (below(32) == 0)
            used = below(7);
        memcpy(before, at, lent);
        answered(no, lozhbinor_book_read(at, lent, used, badge, words, LOZHBINOR_RULE_WORDS, numbers, LOZHBINOR_RULE_BYTES), before, at, lent, 1);
        answered(no, lozhbinor_book_block(at, lent, below(6), words, LOZHBINOR_RULE_WORDS, numbers, LOZHBINOR_RULE_BYTES), before, at, lent, 1);
        answered(no, lozhbinor_book_check(at, lent, used, numbers, LOZHBINOR_BOOK_BYTES), before, at, lent, 1);
    }
    answered(no, lozhbinor_book_total(at, lent, used, numbers, LOZHBINOR_BOOK_BYTES), before, at, lent, 1);
    return lozhbinor_number(numbers, LOZHBINOR_NUMBER);
}

int main(int argc, char **argv)
{
    uint64_t calls = argc > 1 ? strtoull(argv[1], NULL, 10) : 50000;
    state = 2463534242u + (argc > 2 ? strtoull(argv[2], NULL, 10) : 1);
    struct lent l = {pages_for(4 * WORDS), pages_for(4 * WORDS), pages_for(4 * WORDS), pages_for(4 * WORDS), pages_for(64), pages_for(BOOK), pages_for(TABLE)};
    static struct call c;
    uint64_t answers[LOZHBINOR_SHORT + 1] = {0}, sufficed = 0, live = 0, turned = 0;
    for (uint64_t no = 0; no < calls; no++) {
        uint8_t once[64], again[64];
        int next = 0;
        c.m.count = c.p.count = c.t.count = 0;
        matcher(&c.m, DEPTH);
        pattern(&c.p, c.m.at, 5, &next, 1);
        target(&c.t, c.m.at, 5);
        damage(&c.m);
        damage(&c.p);
        damage(&c.t);
        c.budget = below(4) ? below(400) : below(20000);
        c.room = below(2) ? below(40) : below(WORDS);
        c.bytes = below(16) ? LOZHBINOR_MATCH_BYTES + below(4) : below(LOZHBINOR_MATCH_BYTES);
        c.at_end = (int)below(2);
        match(no, &l, &c, once);
        match(no, &l, &c, again);
        if (memcmp(once, again, c.bytes) != 0)
            wrong(no, "the same call answers something else");
        answers[c.bytes < LOZHBINOR_MATCH_BYTES ? LOZHBINOR_SHORT : lozhbinor_number(once, LOZHBINOR_ANSWER)]++;
        if (c.bytes >= LOZHBINOR_MATCH_BYTES)
            turned += (uint64_t)rounds(no, &l, &c, once);
        review(no, &l, &c);
        sufficed += (uint64_t)room(no, &l, &c);
        live += book(no, &l, &c);
    }
    printf("fuzz: %" PRIu64 " random calls of match, twice each, and of review, between guard pages: 0 differ\n", calls);
    printf("fuzz: by rounds %" PRIu64 " of these were done, with as many rows and steps\n", turned);
    printf("fuzz: %" PRIu64 " of these rules matched in the room that suffices\n", sufficed);
    printf("fuzz: as many rule books, with %" PRIu64 " live rules in the end\n", live);
    printf("fuzz: answers");
    for (uint32_t a = 0; a <= LOZHBINOR_SHORT; a++)
        if (answers[a] > 0)
            printf("  %s %" PRIu64, lozhbinor_answer_name(a), answers[a]);
    printf("\n");
    return 0;
}
