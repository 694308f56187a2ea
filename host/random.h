/* What the random tests have in common: numbers at random, slices between guard
 * pages, and rules and units at random, whole or damaged. */
#ifndef LOZHBINOR_RANDOM_H
#define LOZHBINOR_RANDOM_H

#include "lozhbinor.h"

#include <stdio.h>
#include <stdlib.h>
#include <string.h>
#include <sys/mman.h>
#include <unistd.h>

enum { WORDS = 2048, DEPTH = 4 };

static uint64_t state;

static inline uint32_t below(uint32_t n)
{
    state ^= state << 13;
    state ^= state >> 7;
    state ^= state << 17;
    return (uint32_t)((state >> 11) % n);
}

/* Pages between two that may not be touched. */
struct pages {
    uint8_t *first;
    size_t bytes;
};

static inline struct pages pages_for(size_t bytes)
{
    size_t page = (size_t)sysconf(_SC_PAGESIZE);
    struct pages p;
    p.bytes = (bytes + page - 1) / page * page;
    uint8_t *all = mmap(NULL, p.bytes + 2 * page, PROT_NONE, MAP_PRIVATE | MAP_ANONYMOUS, -1, 0);
    if (all == MAP_FAILED || mprotect(all + page, p.bytes, PROT_READ | PROT_WRITE) != 0) {
        perror("fuzz");
        exit(2);
    }
    p.first = all + page;
    return p;
}

/* Where a slice of so many bytes stands: at the end or at the start of its pages. */
static inline void *place_of(struct pages p, size_t bytes, int at_end)
{
    return at_end ? p.first + p.bytes - bytes : p.first;
}

struct words {
    int32_t at[WORDS];
    size_t count;
};

static inline void put(struct words *w, int32_t x)
{
    if (w->count < WORDS)
        w->at[w->count++] = x;
}

static inline void matcher(struct words *w, int depth)
{
    uint32_t tag = below(depth > 0 ? 5 : 2);
    put(w, (int32_t)tag);
    if (tag == LOZHBINOR_M_LIST || tag == LOZHBINOR_M_MULTISET)
        matcher(w, depth - 1);
    if (tag == LOZHBINOR_M_TUPLE) {
        uint32_t width = 2 + below(3);
        put(w, (int32_t)width);
        while (width-- > 0)
            matcher(w, depth - 1);
    }
}

/* A pattern under the matcher at `m`, whose next variable is `*next`; gives back where the matcher ends. */
static inline const int32_t *skip(const int32_t *m)
{
    if (*m == LOZHBINOR_M_LIST || *m == LOZHBINOR_M_MULTISET)
        return skip(m + 1);
    if (*m == LOZHBINOR_M_TUPLE) {
        int32_t width = m[1];
        for (m += 2; width-- > 0;)
            m = skip(m);
        return m;
    }
    return m + 1;
}

static inline void pattern(struct words *w, const int32_t *m, int depth, int *next, int may_bind)
{
    uint32_t kind = depth > 0 ? below(8) : below(3);
    if (kind < 2 && may_bind && *next < LOZHBINOR_VARIABLES) {
        put(w, LOZHBINOR_P_VARIABLE);
        put(w, (*next)++);
    } else if (kind == 3) {
        put(w, LOZHBINOR_P_AND);
        pattern(w, m, depth - 1, next, may_bind);
        pattern(w, m, depth - 1, next, may_bind);
    } else if (kind == 4) {
        put(w, below(2) ? LOZHBINOR_P_OR : LOZHBINOR_P_NOT);
        if (w->count > 0 && w->at[w->count - 1] == LOZHBINOR_P_OR)
            pattern(w, m, depth - 1, next, 0);
        pattern(w, m, depth - 1, next, 0);
    } else if (kind > 4 && (*m == LOZHBINOR_M_LIST || *m == LOZHBINOR_M_MULTISET)) {
        int join = *m == LOZHBINOR_M_LIST && below(2);
        put(w, join ? LOZHBINOR_P_JOIN : LOZHBINOR_P_CONS);
        pattern(w, join ? m : m + 1, depth - 1, next, may_bind);
        pattern(w, m, depth - 1, next, may_bind);
    } else if (kind > 4 && *m == LOZHBINOR_M_TUPLE) {
        int32_t width = m[1];
        put(w, LOZHBINOR_P_TUPLE);
        put(w, width);
        for (m += 2; width-- > 0; m = skip(m))
            pattern(w, m, depth - 1, next, may_bind);
    } else if (*next > 0 && below(2)) {
        put(w, LOZHBINOR_P_VALUE);
        put(w, (int32_t)below((uint32_t)*next));
        put(w, *m == LOZHBINOR_M_INTEGER ? (int32_t)below(3) - 1 : 0);
    } else if (*m == LOZHBINOR_M_INTEGER && below(2)) {
        put(w, LOZHBINOR_P_CONSTANT);
        put(w, (int32_t)below(3));
    } else {
        put(w, LOZHBINOR_P_WILDCARD);
    }
}

static inline void target(struct words *w, const int32_t *m, int depth)
{
    if (*m == LOZHBINOR_M_TUPLE) {
        int32_t width = m[1];
        put(w, LOZHBINOR_T_TUPLE);
        put(w, width);
        for (m += 2; width-- > 0; m = skip(m))
            target(w, m, depth - 1);
    } else if (*m == LOZHBINOR_M_LIST || *m == LOZHBINOR_M_MULTISET) {
        uint32_t count = below(depth > 3 ? 12 : 4);
        put(w, LOZHBINOR_T_COLLECTION);
        put(w, (int32_t)count);
        while (count-- > 0)
            target(w, m + 1, depth - 1);
    } else {
        put(w, LOZHBINOR_T_INTEGER);
        put(w, (int32_t)below(3));
    }
}

/* Now and then a word is another, or words are missing, left over or all random. */
static inline void damage(struct words *w)
{
    switch (below(8)) {
    case 0:
        if (w->count > 0)
            w->at[below((uint32_t)w->count)] = (int32_t)below(12) - 1;
        break;
    case 1:
        w->count = below((uint32_t)w->count + 1);
        break;
    case 2:
        put(w, (int32_t)below(4));
        break;
    case 3:
        if (below(8) == 0) {
            w->count = below(1400);
            for (size_t i = 0; i < w->count; i++)
                w->at[i] = below(4) ? (int32_t)below(8) : (int32_t)(below(65536) << 16 | below(65536));
        }
        break;
    default:
        break;
    }
}

static inline const int32_t *laid(struct pages pages, const struct words *w, int at_end)
{
    /* a slice of no words may be lent with a null pointer */
    if (w->count == 0 && at_end)
        return NULL;
    return memcpy(place_of(pages, 4 * w->count, at_end), w->at, 4 * w->count);
}

#endif
