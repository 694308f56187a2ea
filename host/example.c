/* A small game host: it loads a badge's rule, has it reviewed, matches a saved
 * set of units and prints the rows that earned the badge. */
#include "lozhbinor.h"

#include <inttypes.h>
#include <stdio.h>

#define COUNT(words) (sizeof(words) / sizeof((words)[0]))

/* "Two of a rank", over a multiset of integers. */
static const int32_t matcher[] = {3, 1};
static const int32_t pattern[] = {5, 1, 0, 5, 3, 0, 0, 0};
enum { VARIABLES = 1 };

/* The units of a saved game: ranks 2, 8 and 2. */
static const int32_t units[] = {1, 3, 0, 2, 0, 8, 0, 2};

/* Prints a value in target form, and gives back the words after it. */
static const int32_t *print_value(const int32_t *at)
{
    if (at[0] == 0) {
        printf(" %" PRId32, at[1]);
        return at + 2;
    }
    int32_t left = at[1];
    printf(" {");
    at += 2;
    while (left-- > 0)
        at = print_value(at);
    printf(" }");
    return at;
}

int main(void)
{
    uint8_t numbers[LOZHBINOR_MATCH_BYTES];
    int32_t room[256];

    lozhbinor_review(matcher, COUNT(matcher), pattern, COUNT(pattern), LOZHBINOR_CAP_LARGEST, numbers, sizeof numbers);
    struct lozhbinor_reviewed rule = lozhbinor_reviewed_of(numbers);
    if (rule.answer != LOZHBINOR_DONE) {
        printf("the rule is refused: %s, at word %zu\n", lozhbinor_answer_name(rule.answer), rule.place);
        return 1;
    }
    printf("at worst %" PRIu32 " steps for 64 units\n", rule.count);

    lozhbinor_match(matcher, COUNT(matcher), pattern, COUNT(pattern), units, COUNT(units), rule.count, room, COUNT(room), numbers, sizeof numbers);
    struct lozhbinor_matched found = lozhbinor_matched_of(numbers);
    if (found.answer == LOZHBINOR_TARGET) {
        printf("the units are refused at word %zu: %s\n", found.place, lozhbinor_cause_name(found.cause));
        return 1;
    }
    printf("answer %" PRIu32 ": %" PRIu64 " rows in %" PRIu64 " steps\n", found.answer, found.rows, found.steps);
    const int32_t *at = room;
    for (uint64_t row = 0; row < found.rows; row++) {
        printf("two of rank");
        for (int variable = 0; variable < VARIABLES; variable++)
            at = print_value(at);
        printf("\n");
    }
    return 0;
}
