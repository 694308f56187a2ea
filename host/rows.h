/* Values and rows in print, for the programs that make the tables of the pages. */
#ifndef LOZHBINOR_ROWS_H
#define LOZHBINOR_ROWS_H

#include "lozhbinor.h"

#include <inttypes.h>
#include <stdio.h>

/* A value in target form: {..} a collection, (..) a tuple; gives the word after it. */
static const int32_t *print_value(const int32_t *at)
{
    const int32_t *part = at + 2;
    if (at[0] == LOZHBINOR_T_INTEGER) {
        printf("%" PRId32, at[1]);
        return part;
    }
    printf(at[0] == LOZHBINOR_T_COLLECTION ? "{" : "(");
    for (int32_t k = 0; k < at[1]; k++) {
        if (k > 0)
            printf(" ");
        part = print_value(part);
    }
    printf(at[0] == LOZHBINOR_T_COLLECTION ? "}" : ")");
    return part;
}

/* The variables of a pattern that was accepted. */
static size_t variables_of(const int32_t *pattern, size_t words)
{
    size_t count = 0;
    for (size_t at = 0; at < words; at++) {
        count += pattern[at] == LOZHBINOR_P_VARIABLE;
        if (pattern[at] == LOZHBINOR_P_VARIABLE || pattern[at] == LOZHBINOR_P_CONSTANT || pattern[at] == LOZHBINOR_P_TUPLE)
            at += 1;
        else if (pattern[at] == LOZHBINOR_P_VALUE)
            at += 2;
    }
    return count;
}

/* The rows of two rooms side by side, each on a line of a table. */
static void print_beside(const int32_t *one, uint64_t rows, const int32_t *other, uint64_t others, size_t variables)
{
    for (uint64_t row = 0; row < rows || row < others; row++) {
        printf("|");
        for (size_t v = 0; row < rows && v < variables; v++) {
            printf(" ");
            one = print_value(one);
        }
        printf(" |");
        for (size_t v = 0; row < others && v < variables; v++) {
            printf(" ");
            other = print_value(other);
        }
        printf(" |\n");
    }
}

#endif
