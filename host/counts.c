/* Reads rules, three lines each (a name, the matcher, the pattern), has each
 * reviewed for the caps 8, 16, 32 and 64, and prints a row of a table for it. */
#include "line.h"
#include "lozhbinor.h"

#include <inttypes.h>
#include <stdio.h>
#include <stdlib.h>
#include <string.h>

enum { LONGEST = 4096, MOST = 512 };

/* A number with commas between its thousands. */
static void print_number(uint32_t n)
{
    if (n < 1000) {
        printf("%" PRIu32, n);
        return;
    }
    print_number(n / 1000);
    printf(",%03" PRIu32, n % 1000);
}

int main(void)
{
    static char name[LONGEST], line[LONGEST];
    static int32_t matcher[MOST], pattern[MOST];
    static const int32_t caps[] = {8, 16, 32, 64};
    uint8_t numbers[LOZHBINOR_REVIEW_BYTES];

    while (fgets(name, sizeof name, stdin) != NULL) {
        name[strcspn(name, "\n")] = '\0';
        if (fgets(line, sizeof line, stdin) == NULL)
            return 1;
        size_t matcher_length = words_of(line, matcher, MOST);
        if (fgets(line, sizeof line, stdin) == NULL)
            return 1;
        size_t pattern_length = words_of(line, pattern, MOST);
        printf("| %s |", name);
        for (size_t k = 0; k < sizeof caps / sizeof caps[0]; k++) {
            lozhbinor_review(matcher, matcher_length, pattern, pattern_length, caps[k], numbers, sizeof numbers);
            struct lozhbinor_reviewed rule = lozhbinor_reviewed_of(numbers);
            printf(" ");
            if (rule.answer == LOZHBINOR_DONE)
                print_number(rule.count);
            else
                printf("answer %" PRIu32, rule.answer);
            printf(" |");
        }
        printf("\n");
    }
    return 0;
}
