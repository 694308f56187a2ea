/* Reads badges, four lines each (a name, the matcher, the pattern, the units),
 * has each matched with its rows in form 2, and prints a row of a table for it:
 * the units, those that the first row tells one by one in bold, those that a
 * variable took together in italics. */
#include "line.h"
#include "lozhbinor.h"

#include <inttypes.h>
#include <stdio.h>
#include <stdlib.h>
#include <string.h>

enum { LONGEST = 16384, MOST = 2048, ROOM = 4096 };

static int32_t matcher[MOST], pattern[MOST], target[MOST], room[ROOM];

/* Where the value at an index ends. */
static size_t end_of(size_t at)
{
    size_t end = at + 2;
    if (target[at] != LOZHBINOR_T_INTEGER)
        for (int32_t k = 0; k < target[at + 1]; k++)
            end = end_of(end);
    return end;
}

/* The value at an index: {..} a collection, (..) a tuple. */
static void print_value(size_t at)
{
    if (target[at] == LOZHBINOR_T_INTEGER) {
        printf("%" PRId32, target[at + 1]);
        return;
    }
    printf(target[at] == LOZHBINOR_T_COLLECTION ? "{" : "(");
    size_t part = at + 2;
    for (int32_t k = 0; k < target[at + 1]; k++) {
        if (k > 0)
            printf(" ");
        print_value(part);
        part = end_of(part);
    }
    printf(target[at] == LOZHBINOR_T_COLLECTION ? "}" : ")");
}

/* Whether one of the variables took the unit from `from` up to `to`, or a part of it; and whether one took it with others. */
static int alone(const int32_t *row, size_t variables, size_t from, size_t to)
{
    for (size_t v = 0; v < variables; v++) {
        size_t at = (size_t)row[LOZHBINOR_ORIGIN_WORDS * v];
        if (from <= at && at < to)
            return 1;
    }
    return 0;
}

static int together(const int32_t *row, size_t variables, int32_t unit)
{
    for (size_t v = 0; v < variables; v++) {
        const int32_t *origin = row + LOZHBINOR_ORIGIN_WORDS * v;
        if (origin[0] == 0 && (lozhbinor_marks(origin) >> unit & 1) != 0)
            return 1;
    }
    return 0;
}

static void print_units(size_t variables)
{
    size_t unit = 2;
    for (int32_t k = 0; k < target[1]; k++) {
        const char *mark = alone(room, variables, unit, end_of(unit)) ? "**" : together(room, variables, k) ? "*" : "";
        printf(" %s", mark);
        print_value(unit);
        printf("%s", mark);
        unit = end_of(unit);
    }
}

int main(void)
{
    static char name[LONGEST], line[LONGEST];
    int32_t *const into[] = {matcher, pattern, target};
    uint8_t numbers[LOZHBINOR_MATCH_BYTES];

    while (fgets(name, sizeof name, stdin) != NULL) {
        size_t length[3];
        name[strcspn(name, "\n")] = '\0';
        for (size_t k = 0; k < 3; k++) {
            if (fgets(line, sizeof line, stdin) == NULL)
                return 1;
            length[k] = words_of(line, into[k], MOST);
        }
        lozhbinor_match_with(LOZHBINOR_FORM_ORIGINS, LOZHBINOR_DIALECT_EVERY_PLACE, matcher, length[0], pattern, length[1], target, length[2], UINT32_MAX, room, ROOM, numbers,
                             sizeof numbers);
        struct lozhbinor_matched found = lozhbinor_matched_of(numbers);
        if ((found.answer != LOZHBINOR_DONE && found.answer != LOZHBINOR_FULL) || target[0] == LOZHBINOR_T_INTEGER)
            return 1;
        printf("| %s |", name);
        print_units(found.rows == 0 ? 0 : found.words / found.rows / LOZHBINOR_ORIGIN_WORDS);
        printf(" | %" PRIu64 " |\n", found.rows);
    }
    return 0;
}
