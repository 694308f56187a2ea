/* Advances a run again and again, for docs/portions to count the instructions of
 * an advance:   portions pair|long STEPS CALLS
 * pair: two of a rank on 64 units of one rank; long: the longest chain of conses,
 * on eight groups of 62 units. */
#include "lozhbinor.h"

#include <stdlib.h>
#include <string.h>

enum { ROOM = 16384, GROUPS = 8, IN_GROUP = 62, CONSES = 127 };

struct words {
    int32_t word[LOZHBINOR_TARGET_WORDS];
    size_t count;
};

static void put(struct words *w, int32_t word)
{
    w->word[w->count++] = word;
}

static void collection(struct words *w, int32_t count)
{
    put(w, LOZHBINOR_T_COLLECTION);
    put(w, count);
}

static void units(struct words *w, int32_t count)
{
    collection(w, count);
    for (int32_t k = 0; k < count; k++) {
        put(w, LOZHBINOR_T_INTEGER);
        put(w, 7);
    }
}

int main(int argc, char **argv)
{
    static const int32_t two_of_a_rank[] = {5, 1, 0, 5, 3, 0, 0, 0}, multiset[] = {3, 1}, groups[] = {3, 3, 1};
    static int32_t room[ROOM];
    static struct words pattern, target;
    static struct lozhbinor_run run;
    uint8_t numbers[LOZHBINOR_MATCH_BYTES];
    if (argc != 4)
        return 2;
    int pair = strcmp(argv[1], "pair") == 0;
    if (pair) {
        memcpy(pattern.word, two_of_a_rank, sizeof two_of_a_rank);
        pattern.count = sizeof two_of_a_rank / sizeof *two_of_a_rank;
        units(&target, LOZHBINOR_ELEMENTS);
    } else {
        for (int k = 0; k < CONSES; k++) {
            put(&pattern, LOZHBINOR_P_CONS);
            put(&pattern, LOZHBINOR_P_WILDCARD);
        }
        put(&pattern, LOZHBINOR_P_WILDCARD);
        collection(&target, GROUPS);
        for (int k = 0; k < GROUPS; k++)
            units(&target, IN_GROUP);
    }
    if (lozhbinor_open(&run, LOZHBINOR_FORM_WORDS, LOZHBINOR_DIALECT_EVERY_PLACE, pair ? multiset : groups, pair ? 2 : 3, pattern.word, pattern.count, target.word,
                       target.count, ROOM,
                       numbers, sizeof numbers) != LOZHBINOR_DONE)
        return 1;
    uint32_t steps = (uint32_t)strtoul(argv[2], NULL, 10);
    for (unsigned long calls = strtoul(argv[3], NULL, 10); calls > 0; calls--)
        if (lozhbinor_advance(&run, steps, room, ROOM, numbers, sizeof numbers) != LOZHBINOR_BUDGET)
            return 1;
    return 0;
}
