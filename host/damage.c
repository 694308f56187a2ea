/* Every damage to a rule book in a real file:   damage FILE
 *
 * Rules are added, the file is written and read back, and what was added is
 * read word for word. Then the file is damaged, each damage undone before the
 * next: every word of every block changed, every two unequal words of a block
 * exchanged, a block torn at every byte between what it was and what it is, two
 * blocks exchanged, the end cut off. Every call must refuse each of them, and
 * change no byte. */
#include "lozhbinor.h"

#include <stdio.h>
#include <stdlib.h>
#include <string.h>

enum { BLOCK = LOZHBINOR_BLOCK_BYTES, WORDS = BLOCK / 2, BLOCKS = 4, BYTES = BLOCKS * BLOCK, RULE = LOZHBINOR_RULE_WORDS };

struct rule {
    uint16_t version, badge;
    uint32_t dialect;
    int32_t matcher[2];
    size_t matcher_words;
    int32_t pattern[8];
    size_t pattern_words;
};

/* The check of the first, in block 0, is 65,536: the exchange of its words 0 and 255 keeps the check, and is 13. */
static const struct rule rules[] = {
    {1, 21754, 1, {3, 1}, 2, {5, 1, 0, 5, 3, 0, 0, 0}, 8},
    {2, 12, 2, {1}, 1, {2, -1}, 2},
    {1, 11, 1, {3, 1}, 2, {5, 1, 0, 5, 3, 0, 0, 0}, 8},
};
enum { RULES = sizeof rules / sizeof rules[0] };

static FILE *file;
static uint8_t bytes[BYTES], good[BYTES], numbers[LOZHBINOR_RULE_BYTES];
static int faults;

static void check(int holds, const char *what)
{
    if (!holds) {
        printf("WRONG: %s\n", what);
        faults++;
    }
}

static void must(int done)
{
    if (!done) {
        perror("damage");
        exit(2);
    }
}

static void save(size_t at, const uint8_t *from, size_t count)
{
    must(fseek(file, (long)at, SEEK_SET) == 0 && fwrite(from, 1, count, file) == count && fflush(file) == 0);
}

/* What the file holds. */
static size_t load(void)
{
    must(fseek(file, 0, SEEK_SET) == 0);
    return fread(bytes, 1, BYTES, file);
}

static uint16_t word_at(const uint8_t *block, size_t i)
{
    return (uint16_t)(block[2 * i] | block[2 * i + 1] << 8);
}

static void put_word(uint8_t *block, size_t i, uint16_t w)
{
    block[2 * i] = (uint8_t)w;
    block[2 * i + 1] = (uint8_t)(w >> 8);
}

static uint32_t add(const struct rule *r, size_t lent, uint32_t used)
{
    return lozhbinor_book_add(bytes, lent, used, r->version, r->badge, r->dialect, r->matcher, r->matcher_words, r->pattern,
                              r->pattern_words, numbers, sizeof numbers);
}

/* The answer of every call on the book in the file, which must be the same; no byte changes. */
static uint32_t answer_of(uint32_t used)
{
    static uint8_t before[BYTES];
    int32_t words[RULE];
    size_t lent = load();
    memcpy(before, bytes, BYTES);
    uint32_t answer = lozhbinor_book_total(bytes, lent, used, numbers, sizeof numbers);
    if (answer != 0) {
        check(lozhbinor_book_read(bytes, lent, used, rules[0].badge, words, RULE, numbers, sizeof numbers) == answer, "a read of a damaged book");
        check(lozhbinor_book_withdraw(bytes, lent, used, rules[0].badge, numbers, sizeof numbers) == answer, "a withdrawal from a damaged book");
        check(add(&rules[0], lent, used) == answer, "an add to a damaged book");
        check(memcmp(before, bytes, BYTES) == 0, "a refused call changed a byte");
    }
    return answer;
}

/* A block in the file for a moment. */
static uint32_t with_block(size_t k, const uint8_t *block)
{
    save(BLOCK * k, block, BLOCK);
    uint32_t answer = answer_of(RULES);
    save(BLOCK * k, good + BLOCK * k, BLOCK);
    return answer;
}

static void reads_back(void)
{
    int32_t words[RULE];
    check(load() == RULES * BLOCK, "the file has the blocks in use");
    check(lozhbinor_book_total(bytes, RULES * BLOCK, RULES, numbers, sizeof numbers) == 0, "the book in the file is good");
    check(lozhbinor_number(numbers, LOZHBINOR_NUMBER) == RULES, "its total");
    for (size_t i = 0; i < RULES; i++) {
        const struct rule *r = &rules[i];
        check(lozhbinor_book_read(bytes, RULES * BLOCK, RULES, r->badge, words, RULE, numbers, sizeof numbers) == 0, "a read");
        check(lozhbinor_number(numbers, LOZHBINOR_FOUND) == 1, "the badge is found");
        check(lozhbinor_number(numbers, LOZHBINOR_RULE_VERSION) == r->version, "the version");
        check(lozhbinor_number(numbers, LOZHBINOR_RULE_DIALECT) == r->dialect, "the dialect");
        check(lozhbinor_number(numbers, LOZHBINOR_RULE_MATCHER) == r->matcher_words, "the matcher's length");
        check(lozhbinor_number(numbers, LOZHBINOR_RULE_PATTERN) == r->pattern_words, "the pattern's length");
        check(memcmp(words, r->matcher, 4 * r->matcher_words) == 0, "the matcher");
        check(memcmp(words + r->matcher_words, r->pattern, 4 * r->pattern_words) == 0, "the pattern");
    }
    check(lozhbinor_book_read(bytes, RULES * BLOCK, RULES, 99, words, RULE, numbers, sizeof numbers) == 0, "a badge that is not live");
    check(lozhbinor_number(numbers, LOZHBINOR_FOUND) == 0, "it is not found");
}

/* Each word, each of its bits turned, and all of them. */
static long changes(void)
{
    long count = 0;
    uint8_t block[BLOCK];
    for (size_t k = 0; k < RULES; k++)
        for (size_t i = 0; i < WORDS; i++)
            for (unsigned bit = 0; bit <= 16; bit++, count++) {
                memcpy(block, good + BLOCK * k, BLOCK);
                put_word(block, i, (uint16_t)(word_at(block, i) ^ (bit < 16 ? 1u << bit : 0xFFFFu)));
                check(with_block(k, block) == LOZHBINOR_BOOK_CHECK, "a changed word is 12");
            }
    return count;
}

static long exchanges(long *by_number)
{
    long count = 0;
    uint8_t block[BLOCK];
    for (size_t k = 0; k < RULES; k++)
        for (size_t i = 0; i < WORDS; i++)
            for (size_t j = i + 1; j < WORDS; j++) {
                uint16_t a = word_at(good + BLOCK * k, i), b = word_at(good + BLOCK * k, j);
                if (a == b)
                    continue;
                memcpy(block, good + BLOCK * k, BLOCK);
                put_word(block, i, b);
                put_word(block, j, a);
                uint32_t answer = with_block(k, block);
                check(answer == LOZHBINOR_BOOK_CHECK || (answer == LOZHBINOR_BOOK_NUMBER && i == 0 && j == 255), "an exchange is 12, or 13 of words 0 and 255");
                *by_number += answer == LOZHBINOR_BOOK_NUMBER;
                count++;
            }
    return count;
}

/* A write of block 1 that was broken off after each of its bytes: a new rule over a withdrawn one, and the withdrawal. */
static long torn(void)
{
    long count = 0;
    uint8_t empty[BLOCK], block[BLOCK];
    load();
    check(lozhbinor_book_withdraw(bytes, BYTES, RULES, rules[1].badge, numbers, sizeof numbers) == 0, "a withdrawal");
    memcpy(empty, bytes + BLOCK, BLOCK);
    check(with_block(1, empty) == 0, "the withdrawn block in the file is good");
    for (size_t cut = 1; cut < BLOCK; cut++)
        for (int adding = 0; adding < 2; adding++) {
            const uint8_t *new = adding ? good + BLOCK : empty, *old = adding ? empty : good + BLOCK;
            memcpy(block, new, cut);
            memcpy(block + cut, old + cut, BLOCK - cut);
            if (memcmp(block, old, BLOCK) == 0 || memcmp(block, new, BLOCK) == 0)
                continue;
            check(with_block(1, block) != 0, "a torn block passes");
            count++;
        }
    return count;
}

/* Two whole blocks exchanged, and two badge numbers, as a merge would. */
static void merged(void)
{
    uint8_t one[BLOCK];
    memcpy(one, good + BLOCK, BLOCK);
    save(BLOCK, good, BLOCK);
    check(with_block(0, one) == LOZHBINOR_BOOK_NUMBER, "two blocks exchanged are 13");
    save(BLOCK, good + BLOCK, BLOCK);
    put_word(one, 2, rules[0].badge);
    save(BLOCK, one, BLOCK);
    memcpy(one, good, BLOCK);
    put_word(one, 2, rules[1].badge);
    check(with_block(0, one) == LOZHBINOR_BOOK_CHECK, "two badge numbers exchanged are 12");
    save(BLOCK, good + BLOCK, BLOCK);
}

int main(int count, char **names)
{
    long by_number = 0;
    must(count == 2 && (file = fopen(names[1], "w+b")) != NULL);
    memset(bytes, 170, BYTES);
    for (uint32_t k = 0; k < RULES; k++) {
        check(add(&rules[k], BYTES, k) == 0, "an add");
        check(lozhbinor_number(numbers, LOZHBINOR_USED) == k + 1, "the blocks in use");
    }
    check(bytes[RULES * BLOCK] == 170, "the block that is lent and not in use");
    memcpy(good, bytes, BYTES);
    save(0, bytes, RULES * BLOCK);
    reads_back();
    long changed = changes(), exchanged = exchanges(&by_number), broken = torn();
    merged();
    check(answer_of(RULES + 1) == LOZHBINOR_BOOK_NUMBER, "a block in use that the file does not have");
    reads_back();
    must(fclose(file) == 0);
    if (faults == 0)
        printf("damage: %ld changes of a word, %ld exchanges (%ld of them by the block's number) and %ld torn blocks in a file, each as expected\n", changed,
               exchanged, by_number, broken);
    return faults != 0;
}
