/* Lozhbinor: badge rules over a player's units, matched and reviewed. The
 * library is x86-64 code for Linux; on another machine it runs in an emulator.
 *
 * Every slice is a pointer and a length. Words are signed 32-bit numbers; the
 * lengths of matcher, pattern, target, table, room and `words` count words, those
 * of `numbers` and of a book count bytes. The slices are only read, except
 * `table`, `room`, `words`, `numbers` and a book that is changed, which must not
 * overlap each other or any other slice. A slice of length 0 may have any pointer, null too.
 *
 * The words, each form a tag and what follows it (docs/RULES.md has examples):
 *   matcher, at most 64 words, four levels of 2, 3 and 4
 *     0 something   1 integer   2 M list   3 M multiset   4 k M.. tuple
 *   pattern, at most 256 words
 *     0 wildcard   1 v variable   2 c constant   3 v c value of v, plus c
 *     4 nil   5 p q cons   6 p q join   7 k p.. tuple
 *     8 p q and   9 p q or   10 p not; no variable inside an or or a not
 *   target, at most 1,024 words, eight levels of 1 and 2
 *     0 x integer   1 n v.. collection, at most 64   2 k v.. tuple
 * A tuple's width k is 2, 3 or 4.
 *
 * The answer's numbers are written to `numbers`, eight bytes each, low byte
 * first; its further bytes are left alone. The call gives back the answer. No
 * input is wrong: every words, budget and room give one of the answers below.
 * Nothing is allocated, nothing is kept between calls but in a run that the game
 * lends, and two threads may call at the same time on slices of their own. The
 * deepest stack of a match, measured over rules that nest as far as the limits
 * allow, is at most 29,440 bytes, that of an advance 89,600 bytes. A call is not
 * interrupted from outside: it ends by itself, a match after at most `budget`
 * steps; a search that must not stall a frame goes on by lozhbinor_advance, which
 * ends after `steps`.
 *
 * How to choose a room. Either by what the game shows: with room for some rows
 * a match ends with 8 when the next one does not fit, and the rows before it
 * stand whole. Or so that it is never full: lozhbinor_room tells how many words
 * suffice for a rule.
 */
#ifndef LOZHBINOR_H
#define LOZHBINOR_H

#include <stddef.h>
#include <stdint.h>

#ifdef __cplusplus
extern "C" {
#endif

/* The version of this header. lozhbinor_version() gives that of the library:
 * the same number, or the two do not belong together. */
#define LOZHBINOR_VERSION_MAJOR 3
#define LOZHBINOR_VERSION_MINOR 0
#define LOZHBINOR_VERSION (1000 * LOZHBINOR_VERSION_MAJOR + LOZHBINOR_VERSION_MINOR)

uint32_t lozhbinor_version(void);

/* The tags. */
enum {
    LOZHBINOR_M_SOMETHING = 0,
    LOZHBINOR_M_INTEGER = 1,
    LOZHBINOR_M_LIST = 2,
    LOZHBINOR_M_MULTISET = 3,
    LOZHBINOR_M_TUPLE = 4
};
enum {
    LOZHBINOR_P_WILDCARD = 0,
    LOZHBINOR_P_VARIABLE = 1,
    LOZHBINOR_P_CONSTANT = 2,
    LOZHBINOR_P_VALUE = 3,
    LOZHBINOR_P_NIL = 4,
    LOZHBINOR_P_CONS = 5,
    LOZHBINOR_P_JOIN = 6,
    LOZHBINOR_P_TUPLE = 7,
    LOZHBINOR_P_AND = 8,
    LOZHBINOR_P_OR = 9,
    LOZHBINOR_P_NOT = 10
};
enum {
    LOZHBINOR_T_INTEGER = 0,
    LOZHBINOR_T_COLLECTION = 1,
    LOZHBINOR_T_TUPLE = 2
};

/* The limits. */
enum {
    LOZHBINOR_MATCHER_WORDS = 64,
    LOZHBINOR_PATTERN_WORDS = 256,
    LOZHBINOR_TARGET_WORDS = 1024,
    LOZHBINOR_MATCHER_LEVELS = 4,
    LOZHBINOR_TARGET_LEVELS = 8,
    LOZHBINOR_ELEMENTS = 64,
    LOZHBINOR_WIDTH_SMALLEST = 2,
    LOZHBINOR_WIDTH_LARGEST = 4,
    LOZHBINOR_VARIABLES = 16,
    LOZHBINOR_CAP_LARGEST = 64
};

/* The answers. */
enum {
    LOZHBINOR_DONE = 0,         /* every row found is in the room; 0 rows: none exists */
    LOZHBINOR_MATCHER = 1,      /* over 64 words, or not one whole matcher in the limits */
    LOZHBINOR_PATTERN = 2,      /* over 256 words, or not one whole pattern */
    LOZHBINOR_VARIABLE = 3,     /* a variable is out of order, or inside an or or a not */
    LOZHBINOR_MISFIT = 4,       /* the pattern does not fit the matcher */
    LOZHBINOR_TARGET = 5,       /* over 1,024 words, or not one whole target in the limits; see the cause */
    LOZHBINOR_UNFIT = 6,        /* the target does not fit the matcher */
    LOZHBINOR_BUDGET = 7,       /* the budget is used up and states remain */
    LOZHBINOR_FULL = 8,         /* a row did not fit into the room */
    LOZHBINOR_CAP = 9,          /* review: the cap is outside 0 to 64 */
    LOZHBINOR_TOO_BIG = 10,     /* review: the count passes 4,294,967,295 */
    LOZHBINOR_ALWAYS_TRUE = 11, /* review: no tag of the pattern can fail; before 9 and 10 */
    LOZHBINOR_BOOK_CHECK = 12,    /* a book: a block's check does not hold */
    LOZHBINOR_BOOK_NUMBER = 13,   /* a book: a block has another number, or is not lent */
    LOZHBINOR_BOOK_VERSION = 14,  /* a book: a version other than 1 and 2 */
    LOZHBINOR_BOOK_FORM = 15,     /* a book: a block or a rule not as laid out, a badge live twice */
    LOZHBINOR_BOOK_LIVE = 16,     /* add: the badge is live already */
    LOZHBINOR_BOOK_FULL = 17,     /* add: no withdrawn block and no lent one */
    LOZHBINOR_BOOK_LONG = 18,     /* add: a rule of over 124 words */
    LOZHBINOR_UNLIKE = 19,      /* an advance: a room unlike the size given at the opening */
    LOZHBINOR_FORM = 20,        /* there is no such row form; before 1 */
    LOZHBINOR_TABLE = 21,       /* rounds: more states wait than 256, or than the table holds */
    LOZHBINOR_DIALECT = 22,     /* there is no such dialect; after 20 and before 1 */
    LOZHBINOR_BOOK_NOT_LIVE = 23, /* withdraw: the badge is not live */
    LOZHBINOR_SHORT = 24        /* a slice for the answer is too short; nothing was written */
};

/* The forms of a row. In form 1 each variable has its value in target form. In
 * form 2 it has three words: the index of the value's tag in the target, and
 * which elements of the collection that stands there are the value's, bit by
 * bit, the first element lowest, low half first; for an integer or a tuple 0 0. */
enum {
    LOZHBINOR_FORM_WORDS = 1,
    LOZHBINOR_FORM_ORIGINS = 2,
    LOZHBINOR_ORIGIN_WORDS = 3
};

/* The numbers of match, and their indices. */
enum {
    LOZHBINOR_ANSWER = 0,
    LOZHBINOR_PLACE = 1,
    LOZHBINOR_ROWS = 2,
    LOZHBINOR_STEPS = 3,
    LOZHBINOR_WORDS = 4,
    LOZHBINOR_CAUSE = 5,
    LOZHBINOR_MATCH_NUMBERS = 6,
    LOZHBINOR_MATCH_BYTES = 48
};

/* The causes: with answer 5, what is wrong with the target at its place; in
 * every other answer the cause is 0. docs/CERTIFICATION.md shows how to mend
 * each. */
enum {
    LOZHBINOR_CAUSE_NONE = 0,
    LOZHBINOR_CAUSE_OVER_LENGTH = 1, /* over 1,024 words; place 1024 */
    LOZHBINOR_CAUSE_UNKNOWN_TAG = 2, /* the word is no tag */
    LOZHBINOR_CAUSE_COUNT = 3,       /* a collection's count is not from 0 to 64 */
    LOZHBINOR_CAUSE_TOO_DEEP = 4,    /* a ninth level begins */
    LOZHBINOR_CAUSE_CUT_SHORT = 5,   /* a word is missing; the place is the length */
    LOZHBINOR_CAUSE_LEFT_OVER = 6,   /* the target has ended before this word */
    LOZHBINOR_CAUSE_WIDTH = 7        /* a tuple's width is not from 2 to 4 */
};

/* The numbers of review: answer and place as above, and the count. */
enum {
    LOZHBINOR_COUNT = 2,
    LOZHBINOR_REVIEW_NUMBERS = 3,
    LOZHBINOR_REVIEW_BYTES = 24
};

/* Matches the units in `target` against a rule. In answers 0, 7 and 8 the rows
 * stand whole from the start of the room; each word after them, and in every
 * other answer the whole room, is what it was. */
uint32_t lozhbinor_match(const int32_t *matcher, size_t matcher_words,
                         const int32_t *pattern, size_t pattern_words,
                         const int32_t *target, size_t target_words,
                         uint32_t budget,
                         int32_t *room, size_t room_words,
                         uint8_t *numbers, size_t numbers_bytes);

/* The dialects. In dialect 2 equal units count once: a cons under a multiset
 * takes one place for each value that differs, the first one, among those that
 * are left there. A cons under a multiset whose elements cannot be told apart,
 * since something stands in their matcher, is 4 in dialect 2. */
enum {
    LOZHBINOR_DIALECT_EVERY_PLACE = 1,
    LOZHBINOR_DIALECT_FIRST_PLACES = 2
};

/* The same with rows in the form, and in the dialect, that are picked: 20 where
 * there is no such form, and then 22 where there is no such dialect. In form 2
 * the room is never full with rows times variables times three words. Dialect 2
 * has some of dialect 1's rows, in their order, in no more steps. */
uint32_t lozhbinor_match_with(uint32_t form, uint32_t dialect,
                              const int32_t *matcher, size_t matcher_words,
                              const int32_t *pattern, size_t pattern_words,
                              const int32_t *target, size_t target_words,
                              uint32_t budget,
                              int32_t *room, size_t room_words,
                              uint8_t *numbers, size_t numbers_bytes);

/* The other search order: by rounds. In a round each list of waiting states gives
 * up its first state; what follows comes first, then the remainders, in order.
 * The rows are those of lozhbinor_match_with with the same form and dialect, in
 * another order, in as many steps; short ways come early. The waiting states stand
 * in `table`, words that the game lends: it holds table_words /
 * LOZHBINOR_STATE_WORDS states, and a round that would begin with more, or with
 * more than 256, ends the call with 21, the rows of the rounds before in the room
 * as with 7. Budget and room come first. What is left in the table is of no
 * account, and nothing is read there that the call has not written. */
enum {
    LOZHBINOR_STATE_WORDS = 825,
    LOZHBINOR_WAITING_LARGEST = 256
};
uint32_t lozhbinor_rounds(uint32_t form, uint32_t dialect,
                          const int32_t *matcher, size_t matcher_words,
                          const int32_t *pattern, size_t pattern_words,
                          const int32_t *target, size_t target_words,
                          uint32_t budget,
                          int32_t *table, size_t table_words,
                          int32_t *room, size_t room_words,
                          uint8_t *numbers, size_t numbers_bytes);

/* The marks of a variable in a row of form 2, bit k for element k. */
static inline uint64_t lozhbinor_marks(const int32_t *origin)
{
    return (uint64_t)(uint32_t)origin[1] | (uint64_t)(uint32_t)origin[2] << 32;
}

/* The worst count of steps of a rule where no collection has more than `cap`
 * elements: a match with that budget is never stopped by it. A rule that
 * everybody passes is turned away with 11. */
uint32_t lozhbinor_review(const int32_t *matcher, size_t matcher_words,
                          const int32_t *pattern, size_t pattern_words,
                          int32_t cap,
                          uint8_t *numbers, size_t numbers_bytes);

/* Review in a dialect; 22 where there is none such. The figure bounds a match in
 * either. lozhbinor_review is review in dialect 1. */
uint32_t lozhbinor_review_with(uint32_t dialect,
                               const int32_t *matcher, size_t matcher_words,
                               const int32_t *pattern, size_t pattern_words,
                               int32_t cap,
                               uint8_t *numbers, size_t numbers_bytes);

/* The numbers of room: answer and place as review gives them, or 20, and the
 * words. */
enum {
    LOZHBINOR_SUFFICE = 2,
    LOZHBINOR_ROOM_NUMBERS = 3,
    LOZHBINOR_ROOM_BYTES = 24
};

/* The words of room that suffice for a rule, in a row form, on targets of at
 * most `longest` words where no collection has more than `cap` elements: with
 * them, and review's count as budget, a match is stopped by neither. They are 0
 * in a refusal, and for a rule without variables. */
uint32_t lozhbinor_room(uint32_t form,
                        const int32_t *matcher, size_t matcher_words,
                        const int32_t *pattern, size_t pattern_words,
                        int32_t cap, uint32_t longest,
                        uint8_t *numbers, size_t numbers_bytes);

/* The rule book (docs/BOOK.md). A book is lent bytes, blocks of 512, of which
 * the first `used` are in use; bytes after the last whole block are left alone.
 * Every call but lozhbinor_book_block tests every block in use, and a refused
 * call changes no byte. */
enum {
    LOZHBINOR_BLOCK_BYTES = 512,
    LOZHBINOR_RULE_WORDS = 124
};

/* The numbers of add, withdraw, total and check: the answer, a number, and the
 * blocks in use then. The number is that of the live rules for total, that of
 * the first block that is refused for check (`used` where none is), else 0. */
enum {
    LOZHBINOR_NUMBER = 1,
    LOZHBINOR_USED = 2,
    LOZHBINOR_BOOK_NUMBERS = 3,
    LOZHBINOR_BOOK_BYTES = 24
};

/* The numbers of read and of a block: read has 1 where the badge is live and 0
 * where it is not, a block its badge, 0 where it is withdrawn; then what the
 * rule is, all 0 where there is none. */
enum {
    LOZHBINOR_FOUND = 1,
    LOZHBINOR_BADGE = 1,
    LOZHBINOR_RULE_VERSION = 2,
    LOZHBINOR_RULE_DIALECT = 3,
    LOZHBINOR_RULE_MATCHER = 4, /* words of the matcher, at the start of `words` */
    LOZHBINOR_RULE_PATTERN = 5, /* words of the pattern, behind them */
    LOZHBINOR_RULE_NUMBERS = 6,
    LOZHBINOR_RULE_BYTES = 48
};

/* A new rule: into the lowest withdrawn block, or the book grows by one. */
uint32_t lozhbinor_book_add(uint8_t *book, size_t book_bytes, uint32_t used,
                            uint16_t version, uint16_t badge, uint32_t dialect,
                            const int32_t *matcher, size_t matcher_words,
                            const int32_t *pattern, size_t pattern_words,
                            uint8_t *numbers, size_t numbers_bytes);

/* A badge withdrawn: its block stays, empty, and keeps its version. */
uint32_t lozhbinor_book_withdraw(uint8_t *book, size_t book_bytes, uint32_t used,
                                 uint16_t badge,
                                 uint8_t *numbers, size_t numbers_bytes);

/* The number of live rules. */
uint32_t lozhbinor_book_total(const uint8_t *book, size_t book_bytes, uint32_t used,
                              uint8_t *numbers, size_t numbers_bytes);

/* The test that every call makes, and where it fails. */
uint32_t lozhbinor_book_check(const uint8_t *book, size_t book_bytes, uint32_t used,
                              uint8_t *numbers, size_t numbers_bytes);

/* A live rule by its badge. `words` has room for the longest rule, 124 words,
 * or the answer is 24; the words after the rule are left alone. */
uint32_t lozhbinor_book_read(const uint8_t *book, size_t book_bytes, uint32_t used,
                             uint16_t badge,
                             int32_t *words, size_t words_words,
                             uint8_t *numbers, size_t numbers_bytes);

/* One block by itself, whatever stands in the others: a book that was checked
 * once is listed block by block. 13 where the block is not lent. */
uint32_t lozhbinor_book_block(const uint8_t *book, size_t book_bytes, uint32_t block,
                              int32_t *words, size_t words_words,
                              uint8_t *numbers, size_t numbers_bytes);

/* A run (docs/FRAMES.md): a match that goes on a little in each frame. The game
 * owns the struct and lends it to the calls; between them it may be moved or
 * copied like any other bytes, and nothing of it points anywhere. What stands in
 * it is the library's. Run, room and numbers must not overlap. */
enum {
    LOZHBINOR_RUN_BYTES = 16632
};
struct lozhbinor_run {
    uint64_t held[LOZHBINOR_RUN_BYTES / 8];
};

/* The numbers of an opening: answer and place as match gives them, and the cause. */
enum {
    LOZHBINOR_OPEN_CAUSE = 2,
    LOZHBINOR_OPEN_NUMBERS = 3,
    LOZHBINOR_OPEN_BYTES = 24
};

/* Opens a run in the form and the dialect that are picked, whatever the struct
 * held before: 0 0 0, or the refusal, 20, then 22, then 1 to 6. Every advance
 * goes on in them. The words are copied: matcher, pattern and target need not
 * stay. A run that is refused has ended. `room_words` is the length of the room
 * that every advance will lend. */
uint32_t lozhbinor_open(struct lozhbinor_run *run, uint32_t form, uint32_t dialect,
                        const int32_t *matcher, size_t matcher_words,
                        const int32_t *pattern, size_t pattern_words,
                        const int32_t *target, size_t target_words,
                        uint32_t room_words,
                        uint8_t *numbers, size_t numbers_bytes);

/* Takes up to `steps` more steps. The numbers are match's, since the opening:
 * after any portions they are those of one match with the sum of the portions
 * as budget, cut at 4,294,967,295, and new rows stand in the room behind those
 * before. 7: there is more to do. 0 and 8: the run has ended, and gives the same
 * numbers again. 19 where the room has not the length given at the opening; then
 * neither run nor room is touched. A struct that no call has left so is told as
 * 19, or goes on as what it says: whatever its bytes, a call ends, reads and
 * writes nothing but what is lent, and gives an answer of the table. */
uint32_t lozhbinor_advance(struct lozhbinor_run *run, uint32_t steps,
                           int32_t *room, size_t room_words,
                           uint8_t *numbers, size_t numbers_bytes);

/* The number with this index, of those that a call has written. */
static inline uint64_t lozhbinor_number(const uint8_t *numbers, size_t index)
{
    uint64_t number = 0;
    for (size_t i = 8; i-- > 0;)
        number = number << 8 | numbers[8 * index + i];
    return number;
}

/* The numbers as structs, read from the bytes that a call has written. */
struct lozhbinor_matched {
    uint32_t answer;
    size_t place;
    uint64_t rows;
    uint64_t steps;
    size_t words;
    uint32_t cause;
};
struct lozhbinor_reviewed {
    uint32_t answer;
    size_t place;
    uint32_t count;
};
struct lozhbinor_roomed {
    uint32_t answer;
    size_t place;
    uint64_t words;
};
struct lozhbinor_opened {
    uint32_t answer;
    size_t place;
    uint32_t cause;
};
struct lozhbinor_booked { /* of add, withdraw, total and check */
    uint32_t answer;
    uint32_t number;
    uint32_t used;
};
struct lozhbinor_rule { /* of read and of a block; badge is 1 or 0 for read */
    uint32_t answer;
    uint16_t badge;
    uint16_t version;
    uint32_t dialect;
    size_t matcher_words;
    size_t pattern_words;
};

static inline struct lozhbinor_matched lozhbinor_matched_of(const uint8_t *numbers)
{
    struct lozhbinor_matched m;
    m.answer = (uint32_t)lozhbinor_number(numbers, LOZHBINOR_ANSWER);
    m.place = (size_t)lozhbinor_number(numbers, LOZHBINOR_PLACE);
    m.rows = lozhbinor_number(numbers, LOZHBINOR_ROWS);
    m.steps = lozhbinor_number(numbers, LOZHBINOR_STEPS);
    m.words = (size_t)lozhbinor_number(numbers, LOZHBINOR_WORDS);
    m.cause = (uint32_t)lozhbinor_number(numbers, LOZHBINOR_CAUSE);
    return m;
}

static inline struct lozhbinor_reviewed lozhbinor_reviewed_of(const uint8_t *numbers)
{
    struct lozhbinor_reviewed r;
    r.answer = (uint32_t)lozhbinor_number(numbers, LOZHBINOR_ANSWER);
    r.place = (size_t)lozhbinor_number(numbers, LOZHBINOR_PLACE);
    r.count = (uint32_t)lozhbinor_number(numbers, LOZHBINOR_COUNT);
    return r;
}

static inline struct lozhbinor_roomed lozhbinor_roomed_of(const uint8_t *numbers)
{
    struct lozhbinor_roomed r;
    r.answer = (uint32_t)lozhbinor_number(numbers, LOZHBINOR_ANSWER);
    r.place = (size_t)lozhbinor_number(numbers, LOZHBINOR_PLACE);
    r.words = lozhbinor_number(numbers, LOZHBINOR_SUFFICE);
    return r;
}

static inline struct lozhbinor_opened lozhbinor_opened_of(const uint8_t *numbers)
{
    struct lozhbinor_opened o;
    o.answer = (uint32_t)lozhbinor_number(numbers, LOZHBINOR_ANSWER);
    o.place = (size_t)lozhbinor_number(numbers, LOZHBINOR_PLACE);
    o.cause = (uint32_t)lozhbinor_number(numbers, LOZHBINOR_OPEN_CAUSE);
    return o;
}

static inline struct lozhbinor_booked lozhbinor_booked_of(const uint8_t *numbers)
{
    struct lozhbinor_booked b;
    b.answer = (uint32_t)lozhbinor_number(numbers, LOZHBINOR_ANSWER);
    b.number = (uint32_t)lozhbinor_number(numbers, LOZHBINOR_NUMBER);
    b.used = (uint32_t)lozhbinor_number(numbers, LOZHBINOR_USED);
    return b;
}

static inline struct lozhbinor_rule lozhbinor_rule_of(const uint8_t *numbers)
{
    struct lozhbinor_rule r;
    r.answer = (uint32_t)lozhbinor_number(numbers, LOZHBINOR_ANSWER);
    r.badge = (uint16_t)lozhbinor_number(numbers, LOZHBINOR_BADGE);
    r.version = (uint16_t)lozhbinor_number(numbers, LOZHBINOR_RULE_VERSION);
    r.dialect = (uint32_t)lozhbinor_number(numbers, LOZHBINOR_RULE_DIALECT);
    r.matcher_words = (size_t)lozhbinor_number(numbers, LOZHBINOR_RULE_MATCHER);
    r.pattern_words = (size_t)lozhbinor_number(numbers, LOZHBINOR_RULE_PATTERN);
    return r;
}

/* An answer and a cause in a word or two, for a log. */
static inline const char *lozhbinor_answer_name(uint32_t answer)
{
    switch (answer) {
    case LOZHBINOR_DONE: return "done";
    case LOZHBINOR_MATCHER: return "matcher";
    case LOZHBINOR_PATTERN: return "pattern";
    case LOZHBINOR_VARIABLE: return "variable";
    case LOZHBINOR_MISFIT: return "misfit";
    case LOZHBINOR_TARGET: return "target";
    case LOZHBINOR_UNFIT: return "unfit";
    case LOZHBINOR_BUDGET: return "budget";
    case LOZHBINOR_FULL: return "full";
    case LOZHBINOR_CAP: return "cap";
    case LOZHBINOR_TOO_BIG: return "too big";
    case LOZHBINOR_ALWAYS_TRUE: return "always true";
    case LOZHBINOR_BOOK_CHECK: return "check";
    case LOZHBINOR_BOOK_NUMBER: return "block number";
    case LOZHBINOR_BOOK_VERSION: return "version";
    case LOZHBINOR_BOOK_FORM: return "block form";
    case LOZHBINOR_BOOK_LIVE: return "live already";
    case LOZHBINOR_BOOK_FULL: return "no block";
    case LOZHBINOR_BOOK_LONG: return "too long";
    case LOZHBINOR_UNLIKE: return "unlike room";
    case LOZHBINOR_FORM: return "form";
    case LOZHBINOR_TABLE: return "table";
    case LOZHBINOR_DIALECT: return "dialect";
    case LOZHBINOR_BOOK_NOT_LIVE: return "not live";
    case LOZHBINOR_SHORT: return "short";
    default: return "no answer";
    }
}

static inline const char *lozhbinor_cause_name(uint32_t cause)
{
    switch (cause) {
    case LOZHBINOR_CAUSE_NONE: return "none";
    case LOZHBINOR_CAUSE_OVER_LENGTH: return "over length";
    case LOZHBINOR_CAUSE_UNKNOWN_TAG: return "unknown tag";
    case LOZHBINOR_CAUSE_COUNT: return "count out of range";
    case LOZHBINOR_CAUSE_TOO_DEEP: return "too deep";
    case LOZHBINOR_CAUSE_CUT_SHORT: return "cut short";
    case LOZHBINOR_CAUSE_LEFT_OVER: return "left over";
    case LOZHBINOR_CAUSE_WIDTH: return "width out of range";
    default: return "no cause";
    }
}

#ifdef __cplusplus
}
#endif

#endif
