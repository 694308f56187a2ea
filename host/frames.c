/* A game that looks for a badge a little in each frame: a rule that takes some
 * twenty thousand steps is opened once, and advanced by 2,000 in a frame.
 *   frames [STEPS]       steps in a frame */
#include "lozhbinor.h"

#include <inttypes.h>
#include <stdio.h>
#include <stdlib.h>

#define COUNT(words) (sizeof(words) / sizeof((words)[0]))

/* "Four of a rank", over a multiset of integers. */
static const int32_t matcher[] = {3, 1};
static const int32_t pattern[] = {5, 1, 0, 5, 3, 0, 0, 5, 3, 0, 0, 5, 3, 0, 0, 0};
enum { UNITS = 64, ROWS = 24 };

/* What the game keeps between two frames: the run, and the room of its rows. */
static struct lozhbinor_run run;
static int32_t room[2 * ROWS];

int main(int argc, char **argv)
{
    uint32_t steps = argc > 1 ? (uint32_t)strtoul(argv[1], NULL, 10) : 2000;
    uint8_t numbers[LOZHBINOR_MATCH_BYTES];
    int32_t units[2 + 2 * UNITS] = {1, UNITS};
    for (int k = 0; k < UNITS; k++)
        units[3 + 2 * k] = k % 16 == 9 ? 99 : k / 3; /* four of rank 99, at most three of each other */

    lozhbinor_open(&run, LOZHBINOR_FORM_WORDS, LOZHBINOR_DIALECT_EVERY_PLACE, matcher, COUNT(matcher), pattern, COUNT(pattern), units, COUNT(units), COUNT(room), numbers,
                   sizeof numbers);
    struct lozhbinor_opened opened = lozhbinor_opened_of(numbers);
    if (opened.answer != LOZHBINOR_DONE) {
        printf("refused: %s, at word %zu\n", lozhbinor_answer_name(opened.answer), opened.place);
        return 1;
    }

    uint64_t shown = 0;
    for (uint32_t frame = 1;; frame++) {
        uint32_t answer = lozhbinor_advance(&run, steps, room, COUNT(room), numbers, sizeof numbers);
        struct lozhbinor_matched found = lozhbinor_matched_of(numbers);
        /* Rows that were shown stay where they are, two words each; the new ones stand behind them. */
        if (shown < found.rows) {
            printf("frame %" PRIu32 ": %" PRIu64 " more rows, four of rank %" PRId32 "\n", frame, found.rows - shown, room[2 * shown + 1]);
            shown = found.rows;
        }
        if (answer != LOZHBINOR_BUDGET) {
            printf("frame %" PRIu32 ": %s, %" PRIu64 " rows in %" PRIu64 " steps\n", frame, lozhbinor_answer_name(answer), found.rows, found.steps);
            return 0;
        }
    }
}
