/*
 * The header by itself: its numbers where the preprocessor and a declaration need them, each function by a pointer of the type that is
 * written out here, the record of what a group holds by its members, what a request writes: its count always, its offset only where it is
 * granted; what the fetching of holdings writes: twelve records, or none; and what the ceilings that are set refuse. It is compiled as C99
 * and as C++17, with warnings about conversions and casts too. With UNLOOKED_AT it leaves a result unlooked at, and must not compile where
 * warnings are errors.
 */
#include <nostrimel.h>

#if NOSTRIMEL_WORDS(1) != 1608 || NOSTRIMEL_WORDS(24) != 13568 || NOSTRIMEL_WORDS(NOSTRIMEL_MAX_PAGES) != 134208
#error "NOSTRIMEL_WORDS"
#endif
#if NOSTRIMEL_GROUPS != 12
#error "NOSTRIMEL_GROUPS"
#endif
#if NOSTRIMEL_LAYOUT < 1 || NOSTRIMEL_STACK_BYTES < 1 || NOSTRIMEL_MAX_SIZE != NOSTRIMEL_MAX_PAGES * NOSTRIMEL_PAGE_BYTES
#error "another number"
#endif

static uint32_t meta[NOSTRIMEL_WORDS(24)];

static uint32_t (*const init)(uint32_t *, size_t, uint32_t) = nostrimel_init;
static uint32_t (*const allocate)(uint32_t *, size_t, uint32_t, uint32_t, uint32_t *, uint32_t *) = nostrimel_allocate;
static uint32_t (*const give_back)(uint32_t *, size_t, uint32_t, uint32_t) = nostrimel_free;
static uint32_t (*const reset)(uint32_t *, size_t, uint32_t, uint32_t *) = nostrimel_reset;
static uint32_t (*const trim)(uint32_t *, size_t, uint32_t *) = nostrimel_trim;
static uint32_t (*const query)(const uint32_t *, size_t, uint32_t, uint32_t *, uint32_t *) = nostrimel_query;
static uint32_t (*const listing)(const uint32_t *, size_t, uint8_t *, size_t, size_t *) = nostrimel_listing;
static uint32_t (*const holdings)(const uint32_t *, size_t, struct nostrimel_holding *, size_t) = nostrimel_holdings;
static uint32_t (*const set_ceiling)(uint32_t *, size_t, uint32_t, uint32_t) = nostrimel_set_ceiling;

/* A request: its number, its offset or what stood there before, and its count, in place of which something else stood before. */
static int is_answered(size_t words, uint32_t group, uint32_t size, uint32_t number, uint32_t at, uint32_t runs)
{
    const uint32_t unwritten = 0xa5a5a5a5u;
    uint32_t offset = unwritten, looked = unwritten;

    return allocate(meta, words, group, size, &offset, &looked) == number && looked == runs &&
           offset == (number == NOSTRIMEL_DONE ? at : unwritten);
}

/* Granted and refused in every way, on words that hold no state and on those of 24 pages. */
static int requests(size_t words)
{
    return is_answered(words, 1, 100, NOSTRIMEL_NO_STATE, 0, 0) && is_answered(0, 1, 100, NOSTRIMEL_NO_STATE, 0, 0) &&
           init(meta, words, 24) == NOSTRIMEL_DONE && is_answered(words, 1, 8192, NOSTRIMEL_DONE, 0, 1) &&
           is_answered(words, 1, 100, NOSTRIMEL_DONE, 8192, 1) && is_answered(words, 1, 100, NOSTRIMEL_DONE, 8296, 0) &&
           is_answered(words, 13, 100, NOSTRIMEL_BAD_GROUP, 0, 0) && is_answered(words, 1, 0, NOSTRIMEL_BAD_SIZE, 0, 0) &&
           is_answered(words, 2, NOSTRIMEL_MAX_SIZE, NOSTRIMEL_NO_ROOM, 0, 2) &&
           is_answered(words, 1, NOSTRIMEL_MAX_SIZE, NOSTRIMEL_OVER_CEILING, 0, 0) &&
           is_answered(words - 1, 1, 8192, NOSTRIMEL_NO_STATE, 0, 0) && give_back(meta, words, 1, 0) == NOSTRIMEL_DONE &&
           is_answered(words, 2, NOSTRIMEL_MAX_SIZE, NOSTRIMEL_NO_ROOM, 0, 4) &&
           is_answered(words, 1, 12288, NOSTRIMEL_DONE, 40960, 2);
}

/* A record of three figures, with nothing between and behind them: its members stand as those of an array do. */
static int is_three_words(void)
{
    return sizeof(struct nostrimel_holding) == 3 * sizeof(uint32_t) && offsetof(struct nostrimel_holding, blocks) == 0 &&
           offsetof(struct nostrimel_holding, held) == sizeof(uint32_t) &&
           offsetof(struct nostrimel_holding, greatest) == 2 * sizeof(uint32_t);
}

static int is_record(const struct nostrimel_holding *record, uint32_t blocks, uint32_t held, uint32_t greatest)
{
    return record->blocks == blocks && record->held == held && record->greatest == greatest;
}

/* Holdings fetched from the words that the requests left: group 1 holds 104 + 104 + 12,288 bytes, and has held no more. */
static int fetches(size_t words)
{
    enum { AROUND = NOSTRIMEL_GROUPS + 2 };
    const uint32_t unwritten = 0xa5a5a5a5u;
    struct nostrimel_holding around[AROUND];
    struct nostrimel_holding *const list = around + 1;
    size_t i, count;

    for (i = 0; i < AROUND; i++) {
        around[i].blocks = around[i].held = around[i].greatest = unwritten;
    }
    for (count = 0; count <= NOSTRIMEL_GROUPS + 1; count++) {
        if ((count != NOSTRIMEL_GROUPS && holdings(meta, words, list, count) != NOSTRIMEL_BAD_LIST) ||
            holdings(meta, words - 1, list, count) != NOSTRIMEL_NO_STATE) {
            return 0;
        }
    }
    for (i = 0; i < AROUND; i++) {
        if (!is_record(&around[i], unwritten, unwritten, unwritten)) {
            return 0;
        }
    }
    if (holdings(meta, words, list, NOSTRIMEL_GROUPS) != NOSTRIMEL_DONE || !is_record(list, 3, 12496, 12496)) {
        return 0;
    }
    for (i = 1; i < NOSTRIMEL_GROUPS; i++) {
        if (!is_record(list + i, 0, 0, 0)) {
            return 0;
        }
    }
    return is_record(around, unwritten, unwritten, unwritten) && is_record(list + NOSTRIMEL_GROUPS, unwritten, unwritten, unwritten);
}

/* Ceilings on the same words. One that a request just meets grants it, and a byte less refuses it; one below what is held takes nothing. */
static int ceilings(size_t words)
{
    const uint32_t largest = 1048576, held = 12496;

    return set_ceiling(meta, words - 1, 1, 0) == NOSTRIMEL_NO_STATE && set_ceiling(meta, words, 0, largest + 1) == NOSTRIMEL_BAD_GROUP &&
           set_ceiling(meta, words, 13, 0) == NOSTRIMEL_BAD_GROUP && set_ceiling(meta, words, 1, largest + 1) == NOSTRIMEL_BAD_SIZE &&
           set_ceiling(meta, words, 12, UINT32_MAX) == NOSTRIMEL_BAD_SIZE && set_ceiling(meta, words, 1, held + 103) == NOSTRIMEL_DONE &&
           is_answered(words, 1, 100, NOSTRIMEL_OVER_CEILING, 0, 0) && set_ceiling(meta, words, 1, held + 104) == NOSTRIMEL_DONE &&
           is_answered(words, 1, 100, NOSTRIMEL_DONE, 8400, 0) && is_answered(words, 1, 1, NOSTRIMEL_OVER_CEILING, 0, 0) &&
           is_answered(words, 1, 0, NOSTRIMEL_BAD_SIZE, 0, 0) && set_ceiling(meta, words, 1, 0) == NOSTRIMEL_DONE &&
           give_back(meta, words, 1, 8400) == NOSTRIMEL_DONE && is_answered(words, 1, 1, NOSTRIMEL_OVER_CEILING, 0, 0) &&
           is_answered(words, 2, 1, NOSTRIMEL_DONE, 53248, 2) && give_back(meta, words, 2, 53248) == NOSTRIMEL_DONE &&
           set_ceiling(meta, words, 1, largest) == NOSTRIMEL_DONE && is_answered(words, 1, 100, NOSTRIMEL_DONE, 8504, 0);
}

int main(void)
{
    const uint32_t pages = 24;
    const size_t words = NOSTRIMEL_WORDS(pages);
    uint8_t text[NOSTRIMEL_LONGEST_LISTING];
    struct nostrimel_holding list[NOSTRIMEL_GROUPS];
    uint32_t offset, looked, group, room, count;
    size_t length;

#ifdef UNLOOKED_AT
    nostrimel_init(meta, words, pages);
#endif
    /* Requests, holdings and ceilings; then each function once, and the last answer is that of words of one page too few. */
    return !(sizeof meta / sizeof meta[0] == words && is_three_words() && requests(words) && fetches(words) && ceilings(words) &&
             init(meta, words, pages) == NOSTRIMEL_DONE && set_ceiling(meta, words, 12, 104) == NOSTRIMEL_DONE &&
             allocate(meta, words, 12, 100, &offset, &looked) == NOSTRIMEL_DONE && offset == 0 && looked == 1 &&
             query(meta, words, offset, &group, &room) == NOSTRIMEL_DONE && group == 12 && room == 104 &&
             listing(meta, words, text, sizeof text, &length) == NOSTRIMEL_DONE && length == 36 &&
             give_back(meta, words, 12, offset) == NOSTRIMEL_DONE &&
             reset(meta, words, 12, &count) == NOSTRIMEL_DONE && count == 0 &&
             holdings(meta, words, list, NOSTRIMEL_GROUPS) == NOSTRIMEL_DONE && is_record(&list[11], 0, 0, 104) &&
             trim(meta, words, &count) == NOSTRIMEL_DONE && count == 1 &&
             trim(meta, NOSTRIMEL_WORDS(pages - 1), &count) == NOSTRIMEL_NO_STATE);
}
