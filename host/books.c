/* The rule book through the C border: a book is made, written to a file, read
 * back and listed; damage is refused; slices that are too short leave
 * everything alone. Guard bytes stand behind the book and behind the numbers. */
#include "lozhbinor.h"

#include <stdio.h>
#include <string.h>

enum { BLOCKS = 3, SPARE = 7, GUARD = 0xA5 };

static uint8_t book[BLOCKS * LOZHBINOR_BLOCK_BYTES + SPARE], before[sizeof book];
static uint8_t numbers[LOZHBINOR_RULE_BYTES + SPARE];
static int32_t words[LOZHBINOR_RULE_WORDS + SPARE];
static uint32_t used;
static int faults;

static const int32_t pair_of_a_rank[] = { 5, 1, 0, 5, 3, 0, 0, 0 }, multiset[] = { 3, 1 }, any[] = { 0 };

static void check(int good, const char *what)
{
    if (!good) {
        printf("WRONG: %s\n", what);
        faults++;
    }
}

static void begin(void)
{
    memset(numbers, GUARD, sizeof numbers);
    memcpy(before, book, sizeof book);
    for (size_t i = 0; i < sizeof words / sizeof words[0]; i++)
        words[i] = -77;
}

/* The numbers of a call, the guards behind them, and, in a refusal, every byte of the book. */
static void end(const char *what, uint32_t answer, uint32_t wanted, uint64_t number, size_t bytes)
{
    printf("%s: %s\n", what, lozhbinor_answer_name(answer));
    check(answer == wanted && lozhbinor_number(numbers, LOZHBINOR_ANSWER) == wanted, what);
    check(lozhbinor_booked_of(numbers).number == number, what);
    for (size_t i = bytes; i < sizeof numbers; i++)
        check(numbers[i] == GUARD, "a byte behind the numbers");
    check(answer == LOZHBINOR_DONE || memcmp(book, before, sizeof book) == 0, "a refused call changed a byte");
    check(memcmp(book + sizeof book - SPARE, before + sizeof book - SPARE, SPARE) == 0, "a byte after the last block");
}

static void add(const char *what, uint16_t version, uint16_t badge, uint32_t dialect, const int32_t *pattern, size_t n, uint32_t wanted)
{
    begin();
    uint32_t answer = lozhbinor_book_add(book, sizeof book, used, version, badge, dialect, multiset, 2, pattern, n, numbers, sizeof numbers);
    end(what, answer, wanted, 0, LOZHBINOR_BOOK_BYTES);
    used = lozhbinor_booked_of(numbers).used;
}

static void withdraw(const char *what, uint16_t badge, uint32_t wanted)
{
    begin();
    end(what, lozhbinor_book_withdraw(book, sizeof book, used, badge, numbers, sizeof numbers), wanted, 0, LOZHBINOR_BOOK_BYTES);
    check(lozhbinor_number(numbers, LOZHBINOR_USED) == used, "blocks in use");
}

static void total(const char *what, uint32_t wanted, uint64_t live)
{
    begin();
    end(what, lozhbinor_book_total(book, sizeof book, used, numbers, sizeof numbers), wanted, live, LOZHBINOR_BOOK_BYTES);
}

static void check_book(const char *what, uint32_t wanted, uint64_t block)
{
    begin();
    end(what, lozhbinor_book_check(book, sizeof book, used, numbers, sizeof numbers), wanted, block, LOZHBINOR_BOOK_BYTES);
}

/* The rule in `words`, as the last call told it. */
static void rule(uint64_t version, const int32_t *pattern, size_t n)
{
    struct lozhbinor_rule r = lozhbinor_rule_of(numbers);
    check(r.version == version, "version");
    check(r.matcher_words == 2 && memcmp(words, multiset, sizeof multiset) == 0, "matcher");
    check(r.pattern_words == n && memcmp(words + 2, pattern, n * sizeof *pattern) == 0, "pattern");
    for (size_t i = 2 + n; i < sizeof words / sizeof words[0]; i++)
        check(words[i] == -77, "a word behind the rule");
}

static void lists(void)
{
    for (uint32_t block = 0; block < used; block++) {
        begin();
        uint32_t answer = lozhbinor_book_block(book, sizeof book, block, words, sizeof words / sizeof words[0], numbers, sizeof numbers);
        check(answer == LOZHBINOR_DONE, "a block of a good book");
        printf("block %u: badge %u\n", block, (unsigned)lozhbinor_rule_of(numbers).badge);
    }
    begin();
    end("a block that is not lent", lozhbinor_book_block(book, sizeof book, BLOCKS, words, LOZHBINOR_RULE_WORDS, numbers, sizeof numbers), LOZHBINOR_BOOK_NUMBER, 0,
        LOZHBINOR_RULE_BYTES);
}

/* To a file and back. */
static void through_a_file(const char *path)
{
    FILE *file = fopen(path, "wb");
    check(file != NULL && fwrite(book, LOZHBINOR_BLOCK_BYTES, used, file) == used && fclose(file) == 0, "the file is written");
    memset(book, 0, (size_t)used * LOZHBINOR_BLOCK_BYTES);
    file = fopen(path, "rb");
    check(file != NULL && fread(book, LOZHBINOR_BLOCK_BYTES, BLOCKS, file) == used && fclose(file) == 0, "the file is read");
}

static void too_short(void)
{
    begin();
    for (size_t n = 0; n < LOZHBINOR_RULE_BYTES; n++) {
        if (n < LOZHBINOR_BOOK_BYTES) {
            check(lozhbinor_book_add(book, sizeof book, used, 1, 9, 1, multiset, 2, any, 1, numbers, n) == LOZHBINOR_SHORT, "add 24");
            check(lozhbinor_book_withdraw(book, sizeof book, used, 4, numbers, n) == LOZHBINOR_SHORT, "withdraw 24");
            check(lozhbinor_book_total(book, sizeof book, used, numbers, n) == LOZHBINOR_SHORT, "total 24");
            check(lozhbinor_book_check(book, sizeof book, used, numbers, n) == LOZHBINOR_SHORT, "check 24");
        }
        check(lozhbinor_book_read(book, sizeof book, used, 4, words, LOZHBINOR_RULE_WORDS, numbers, n) == LOZHBINOR_SHORT, "read 24");
        check(lozhbinor_book_block(book, sizeof book, 0, words, LOZHBINOR_RULE_WORDS, numbers, n) == LOZHBINOR_SHORT, "block 24");
    }
    check(lozhbinor_book_read(book, sizeof book, used, 4, words, LOZHBINOR_RULE_WORDS - 1, numbers, sizeof numbers) == LOZHBINOR_SHORT, "read into 123 words");
    check(lozhbinor_book_block(book, sizeof book, 0, words, LOZHBINOR_RULE_WORDS - 1, numbers, sizeof numbers) == LOZHBINOR_SHORT, "a block into 123 words");
    for (size_t i = 0; i < sizeof numbers; i++)
        check(numbers[i] == GUARD, "24 wrote a byte");
    check(memcmp(book, before, sizeof book) == 0 && words[0] == -77, "24 changed something");
}

/* Two badge numbers exchanged, with the bytes of a merge that knows no check. */
static void merge(void)
{
    for (size_t i = 4; i < 6; i++) {
        uint8_t one = book[i];
        book[i] = book[LOZHBINOR_BLOCK_BYTES + i];
        book[LOZHBINOR_BLOCK_BYTES + i] = one;
    }
}

int main(int count, char **arguments)
{
    const size_t pair = sizeof pair_of_a_rank / sizeof *pair_of_a_rank;
    memset(book, 170, sizeof book);
    total("an empty book", LOZHBINOR_DONE, 0);
    add("badge 4", 1, 4, 1, any, 1, LOZHBINOR_DONE);
    add("badge 11, version 2", 2, 11, 1, pair_of_a_rank, pair, LOZHBINOR_DONE);
    add("badge 4 again", 1, 4, 1, any, 1, LOZHBINOR_BOOK_LIVE);
    add("version 3", 3, 5, 1, any, 1, LOZHBINOR_BOOK_VERSION);
    add("dialect 2 in version 1", 1, 5, 2, any, 1, LOZHBINOR_BOOK_FORM);
    through_a_file(count > 1 ? arguments[1] : "book");
    total("read back from a file", LOZHBINOR_DONE, 2);
    begin();
    end("badge 11", lozhbinor_book_read(book, sizeof book, used, 11, words, sizeof words / sizeof words[0], numbers, sizeof numbers), LOZHBINOR_DONE, 1, LOZHBINOR_RULE_BYTES);
    rule(2, pair_of_a_rank, pair);
    begin();
    end("badge 12, which is not live", lozhbinor_book_read(book, sizeof book, used, 12, words, LOZHBINOR_RULE_WORDS, numbers, sizeof numbers), LOZHBINOR_DONE, 0, LOZHBINOR_RULE_BYTES);
    merge();
    check_book("two badge numbers exchanged", LOZHBINOR_BOOK_CHECK, 0);
    merge();
    withdraw("badge 4 withdrawn", 4, LOZHBINOR_DONE);
    withdraw("badge 4 once more", 4, LOZHBINOR_BOOK_NOT_LIVE);
    add("badge 6, in its block", 1, 6, 1, any, 1, LOZHBINOR_DONE);
    check(used == 2, "the book did not grow");
    add("badge 7", 1, 7, 1, any, 1, LOZHBINOR_DONE);
    add("badge 8, for which there is no block", 1, 8, 1, any, 1, LOZHBINOR_BOOK_FULL);
    withdraw("badge 7 withdrawn", 7, LOZHBINOR_DONE);
    check_book("all is good", LOZHBINOR_DONE, used);
    lists();
    too_short();
    printf("%d wrong\n", faults);
    return faults != 0;
}
