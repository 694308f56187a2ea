/* The words of a line of text, for the programs that make the tables of the pages. */
#ifndef LOZHBINOR_LINE_H
#define LOZHBINOR_LINE_H

#include <stddef.h>
#include <stdint.h>
#include <stdlib.h>

static size_t words_of(char *line, int32_t *words, size_t most)
{
    size_t count = 0;
    char *end;
    for (long word = strtol(line, &end, 10); end != line && count < most; word = strtol(line, &end, 10)) {
        words[count++] = (int32_t)word;
        line = end;
    }
    return count;
}

#endif
