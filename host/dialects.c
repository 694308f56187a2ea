/* Reads badges, four lines each (a name, the matcher, the pattern, the units),
 * has each matched in both dialects, and prints a table:
 *   dialects          a line for each badge, its rows and steps in either
 *   dialects rows     the rows of each badge in either, side by side */
#include "line.h"
#include "rows.h"

#include <string.h>

enum { LONGEST = 16384, MOST = 2048, ROOM = 4096 };

static int32_t words[3][MOST], room[2][ROOM];
static size_t length[3];

static struct lozhbinor_matched matched(uint32_t dialect)
{
    uint8_t numbers[LOZHBINOR_MATCH_BYTES];
    lozhbinor_match_with(LOZHBINOR_FORM_WORDS, dialect, words[0], length[0], words[1], length[1], words[2], length[2], UINT32_MAX, room[dialect - 1], ROOM,
                         numbers, sizeof numbers);
    return lozhbinor_matched_of(numbers);
}

static void print_steps(struct lozhbinor_matched m)
{
    if (m.answer == LOZHBINOR_DONE)
        printf(" %" PRIu64 " row%s, %" PRIu64 " steps |", m.rows, m.rows == 1 ? "" : "s", m.steps);
    else
        printf(" refused, answer %" PRIu32 " at %zu |", m.answer, m.place);
}

int main(int argc, char **argv)
{
    static char name[LONGEST], line[LONGEST];
    int rows = argc == 2 && strcmp(argv[1], "rows") == 0;

    while (fgets(name, sizeof name, stdin) != NULL) {
        name[strcspn(name, "\n")] = '\0';
        for (size_t k = 0; k < 3; k++) {
            if (fgets(line, sizeof line, stdin) == NULL)
                return 1;
            length[k] = words_of(line, words[k], MOST);
        }
        struct lozhbinor_matched one = matched(LOZHBINOR_DIALECT_EVERY_PLACE), two = matched(LOZHBINOR_DIALECT_FIRST_PLACES);
        if (one.answer != LOZHBINOR_DONE)
            return 1;
        if (rows) {
            print_beside(room[0], one.rows, room[1], two.rows, variables_of(words[1], length[1]));
        } else {
            printf("| %s |", name);
            print_steps(one);
            print_steps(two);
            printf("\n");
        }
    }
    return 0;
}
