/* Reads badges, four lines each (a name, the matcher, the pattern, the units),
 * has each matched depth-first and by rounds, and prints the rows side by side
 * as the lines of a table. */
#include "line.h"
#include "rows.h"

enum { LONGEST = 16384, MOST = 2048, ROOM = 4096, STATES = 256 };

static int32_t words[3][MOST], first[ROOM], second[ROOM], table[STATES * LOZHBINOR_STATE_WORDS];
static size_t length[3];

int main(void)
{
    static char name[LONGEST], line[LONGEST];
    uint8_t numbers[LOZHBINOR_MATCH_BYTES];

    while (fgets(name, sizeof name, stdin) != NULL) {
        for (size_t k = 0; k < 3; k++) {
            if (fgets(line, sizeof line, stdin) == NULL)
                return 1;
            length[k] = words_of(line, words[k], MOST);
        }
        lozhbinor_match_with(LOZHBINOR_FORM_WORDS, LOZHBINOR_DIALECT_EVERY_PLACE, words[0], length[0], words[1], length[1], words[2], length[2], UINT32_MAX, first, ROOM, numbers,
                             sizeof numbers);
        struct lozhbinor_matched depth = lozhbinor_matched_of(numbers);
        lozhbinor_rounds(LOZHBINOR_FORM_WORDS, LOZHBINOR_DIALECT_EVERY_PLACE, words[0], length[0], words[1], length[1], words[2], length[2], UINT32_MAX, table,
                         STATES * LOZHBINOR_STATE_WORDS, second, ROOM, numbers, sizeof numbers);
        struct lozhbinor_matched rounds = lozhbinor_matched_of(numbers);
        if (depth.answer != LOZHBINOR_DONE || rounds.answer != LOZHBINOR_DONE || depth.steps != rounds.steps)
            return 1;
        print_beside(first, depth.rows, second, rounds.rows, variables_of(words[1], length[1]));
    }
    return 0;
}
