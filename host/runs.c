/* Runs through the C border, with the run, the room and the numbers in pages of
 * their own and a page on either side that may not be touched: a read or a write
 * outside ends the program.   runs ADVANCES [SEED]
 *
 * A run is opened over a random rule and advanced by random portions; after each
 * its numbers and its room must be those of one match with their sum as budget.
 * Then it is lent otherwise than the last call left it: bytes at random in every
 * field, in some of them, or numbers near those that a run has. Whatever it
 * holds, an advance must answer from the table, leave the run's words, form,
 * dialect and size as they are, and with 19 everything. */
#define _DEFAULT_SOURCE
#include "lozhbinor.h"
#include "random.h"

#include <inttypes.h>
#include <stddef.h>

/* Where the parts of a run stand, in bytes: only this test has to know. */
enum {
    LIVE = 32,
    COUNTS = 40, /* rows, steps, words */
    BINDINGS = 64,
    SLOTS = 320,
    SECTION = 8 * 272, /* of the slots: places, wholes, what is left, frames, backs */
    SIZE = 11200,
    REFUSAL = 11216,
    LENGTHS = 11232,
    RUN = LOZHBINOR_RUN_BYTES
};

enum { FILL = -77, ROOM = 64, PORTIONS = 6 };

static uint64_t calls;

static void wrong(const char *what)
{
    printf("runs: advance %" PRIu64 ": %s\n", calls, what);
    exit(1);
}

static uint64_t any(void)
{
    return (uint64_t)below(65536) << 48 | (uint64_t)below(65536) << 32 | (uint64_t)below(65536) << 16 | below(65536);
}

/* A number such as a run may hold, or any other. */
static uint64_t some(void)
{
    switch (below(8)) {
    case 0: return any();
    case 1: return UINT64_C(1) << below(64);
    case 2: return (UINT64_C(1) << below(64)) - 1;
    case 3: return below(2048);
    default: return below(40);
    }
}

static uint64_t held(const uint8_t *run, size_t at)
{
    uint64_t x;
    memcpy(&x, run + at, 8);
    return x;
}

static void hold(uint8_t *run, size_t at, uint64_t x)
{
    memcpy(run + at, &x, 8);
}

struct lent {
    struct pages run, matcher, pattern, target, room, numbers;
};

struct rule {
    struct words m, p, t;
    size_t room;
    uint32_t form, dialect;
    int at_end;
};

static uint32_t open(const struct lent *l, const struct rule *c, uint8_t *run, uint8_t *numbers)
{
    return lozhbinor_open((struct lozhbinor_run *)(void *)run, c->form, c->dialect, laid(l->matcher, &c->m, c->at_end), c->m.count, laid(l->pattern, &c->p, c->at_end),
                          c->p.count, laid(l->target, &c->t, c->at_end), c->t.count, (uint32_t)c->room, numbers, LOZHBINOR_MATCH_BYTES);
}

static uint32_t advance(uint8_t *run, uint32_t steps, int32_t *room, size_t words, uint8_t *numbers)
{
    calls++;
    return lozhbinor_advance((struct lozhbinor_run *)(void *)run, steps, room, words, numbers, LOZHBINOR_MATCH_BYTES);
}

/* In portions, each beside one match. Gives the answer of the last. */
static uint32_t portions(const struct lent *l, const struct rule *c, uint8_t *run, int32_t *room, uint8_t *numbers)
{
    uint8_t other[LOZHBINOR_MATCH_BYTES], before[RUN];
    int32_t beside[ROOM];
    uint32_t sum = 0, answer = open(l, c, run, numbers);
    for (size_t i = 0; i < c->room; i++)
        room[i] = beside[i] = FILL;
    for (int k = 0; k < PORTIONS; k++) {
        uint32_t steps = below(4) ? below(60) : below(2) * 5000;
        if (c->room > 0 && below(8) == 0) {
            memcpy(before, run, RUN);
            if (advance(run, steps, room, c->room - 1, numbers) != LOZHBINOR_UNLIKE || memcmp(before, run, RUN) != 0)
                wrong("a room of one word less");
        }
        answer = advance(run, steps, room, c->room, numbers);
        sum += steps;
        uint32_t one = lozhbinor_match_with(c->form, c->dialect, c->m.at, c->m.count, c->p.at, c->p.count, c->t.at, c->t.count, sum, beside, c->room, other, sizeof other);
        if (one != answer || memcmp(other, numbers, sizeof other) != 0)
            wrong("other numbers than one match has");
        if (memcmp(beside, room, 4 * c->room) != 0)
            wrong("another room than one match leaves");
    }
    return answer;
}

/* The run lent otherwise. */
static void change(uint8_t *run)
{
    switch (below(6)) {
    case 0: /* anything anywhere, but for the room's size, so that it is looked at */
        for (size_t at = 0; at < RUN; at += 8)
            if (at != SIZE)
                hold(run, at, any());
        break;
    case 1: /* the same behind a rule that is accepted */
        for (size_t at = 0; at < SIZE; at += 8)
            hold(run, at, below(2) ? any() : some());
        hold(run, LIVE, below(4) ? 1 : some());
        break;
    case 2: /* numbers near those of a run */
        for (size_t at = 0; at < SIZE; at += 8)
            if (below(4) == 0)
                hold(run, at, at >= SLOTS && at < SLOTS + SECTION ? 2 * below(20) : some());
        hold(run, LIVE, below(8) ? 1 : some());
        hold(run, COUNTS, below(3));
        hold(run, COUNTS + 8, below(2) ? 3 + below(90) : UINT32_MAX - below(90));
        hold(run, COUNTS + 16, below(ROOM));
        break;
    case 3: /* one number */
        hold(run, 8 * below(SIZE / 8), some());
        break;
    case 4: /* words of the rule or the units, or their lengths */
        hold(run, REFUSAL + 8 * below((RUN - REFUSAL) / 8), some());
        break;
    default: /* a few numbers, and those of the state */
        for (int k = 0; k < 5; k++)
            hold(run, 8 * below(8), some());
        hold(run, BINDINGS + 8 * below(32), some());
        hold(run, LIVE, 1);
        break;
    }
}

/* An advance of such a run. Gives its answer. */
static uint32_t otherwise(const struct rule *c, uint8_t *run, int32_t *room, uint8_t *numbers)
{
    static uint8_t before[RUN];
    int32_t held_room[ROOM];
    change(run);
    memcpy(before, run, RUN);
    memcpy(held_room, room, 4 * c->room);
    uint32_t answer = advance(run, below(4) ? below(300) : below(5000), room, c->room, numbers);
    if (lozhbinor_number(numbers, LOZHBINOR_ANSWER) != answer || (answer > LOZHBINOR_FULL && answer != LOZHBINOR_UNLIKE && answer != LOZHBINOR_FORM && answer != LOZHBINOR_DIALECT))
        wrong("an answer that an advance does not give");
    if (memcmp(before + SIZE, run + SIZE, RUN - SIZE) != 0)
        wrong("the run's words, form, dialect or size changed");
    if (answer == LOZHBINOR_UNLIKE && (memcmp(before, run, RUN) != 0 || memcmp(held_room, room, 4 * c->room) != 0))
        wrong("19, and run or room changed");
    return answer;
}

/* The struct of the header: its size, and how it stands in memory. */
struct beside {
    uint8_t byte;
    struct lozhbinor_run run;
};

int main(int argc, char **argv)
{
    uint64_t advances = argc > 1 ? strtoull(argv[1], NULL, 10) : 50000;
    state = 2463534242u + (argc > 2 ? strtoull(argv[2], NULL, 10) : 1);
    if (sizeof(struct lozhbinor_run) != LOZHBINOR_RUN_BYTES || offsetof(struct beside, run) != 8)
        wrong("the struct has another size or alignment than the header says");
    struct lent l = {pages_for(RUN), pages_for(4 * WORDS), pages_for(4 * WORDS), pages_for(4 * WORDS), pages_for(4 * ROOM), pages_for(64)};
    static struct rule c;
    uint64_t left[LOZHBINOR_SHORT + 1] = {0}, lent[LOZHBINOR_SHORT + 1] = {0}, went = 0;
    while (calls < advances) {
        int next = 0;
        c.m.count = c.p.count = c.t.count = 0;
        matcher(&c.m, DEPTH);
        pattern(&c.p, c.m.at, 5, &next, 1);
        target(&c.t, c.m.at, 5);
        if (below(8) == 0) {
            damage(&c.m);
            damage(&c.p);
            damage(&c.t);
        }
        c.room = below(ROOM);
        c.form = below(16) ? 1 + below(2) : below(5);
        c.dialect = below(16) ? 1 + below(2) : below(5);
        c.at_end = (int)below(2);
        uint8_t *run = place_of(l.run, RUN, c.at_end), *numbers = place_of(l.numbers, LOZHBINOR_MATCH_BYTES, c.at_end);
        int32_t *room = place_of(l.room, 4 * c.room, c.at_end);
        left[portions(&l, &c, run, room, numbers)]++;
        static uint8_t opened[RUN];
        open(&l, &c, run, numbers);
        advance(run, below(40), room, c.room, numbers);
        memcpy(opened, run, RUN);
        for (int k = 0; k < 16; k++) {
            if (k % 4 == 0)
                memcpy(run, opened, RUN);
            uint64_t steps = held(run, COUNTS + 8);
            uint32_t answer = otherwise(&c, run, room, numbers);
            lent[answer]++;
            went += answer != LOZHBINOR_UNLIKE && held(run, COUNTS + 8) != steps;
        }
    }
    printf("runs: %" PRIu64 " advances between guard pages: in portions as in one match, and of runs lent otherwise: 0 differ\n", calls);
    printf("runs: in portions");
    for (uint32_t a = 0; a <= LOZHBINOR_SHORT; a++)
        if (left[a] > 0)
            printf("  %s %" PRIu64, lozhbinor_answer_name(a), left[a]);
    printf("\nruns: lent otherwise");
    for (uint32_t a = 0; a <= LOZHBINOR_SHORT; a++)
        if (lent[a] > 0)
            printf("  %s %" PRIu64, lozhbinor_answer_name(a), lent[a]);
    printf("\n");
    if (advances >= 10000 && went < advances / 100)
        wrong("too few of the runs lent otherwise took a step");
    return 0;
}
