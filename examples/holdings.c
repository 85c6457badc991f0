/*
 * What each group holds: an arena of 24 pages, a few calls, and after them the table of the twelve holdings, as a display would fetch it.
 * The guide makes the same calls and explains the figures (docs/GUIDE.md, "What each group holds").
 *
 *     ./library
 *     cc -std=c99 -Wall -Wextra -Wpedantic -Werror -Itarget/nostrimel examples/holdings.c target/nostrimel/libnostrimel.a
 *
 * It prints what holdings.out holds. Every answer is compared with the expected one; the first that differs ends it with status 1. It is
 * C99, and C++17 as well.
 */
#include <nostrimel.h>

#include <stdio.h>
#include <stdlib.h>

#define PAGES 24u
#define WORDS NOSTRIMEL_WORDS(PAGES)

/* The metadata. There is no arena here: the figures are all that this program looks at. */
static uint32_t meta[WORDS];

/* Ends the program unless what came is what was expected. */
static void expect(const char *what, unsigned long came, unsigned long expected)
{
    if (came != expected) {
        fprintf(stderr, "%s: %lu came, %lu was expected\n", what, came, expected);
        exit(EXIT_FAILURE);
    }
}

/* A fresh arena. */
static void start(void)
{
    expect("init", nostrimel_init(meta, WORDS, PAGES), NOSTRIMEL_DONE);
    printf("-- %u pages, fresh\n", (unsigned)PAGES);
}

/* A request that is granted at the expected offset. */
static void request(uint32_t group, uint32_t size, uint32_t expected)
{
    uint32_t offset, looked;

    expect("request", nostrimel_allocate(meta, WORDS, group, size, &offset, &looked), NOSTRIMEL_DONE);
    expect("offset", offset, expected);
    printf("group %u asks for %u bytes: at %u\n", (unsigned)group, (unsigned)size, (unsigned)offset);
}

/* A request that is refused. */
static void refused(uint32_t group, uint32_t size, enum nostrimel_refusal expected)
{
    uint32_t offset, looked;
    uint32_t number = nostrimel_allocate(meta, WORDS, group, size, &offset, &looked);

    expect("refusal", number, (unsigned long)expected);
    printf("group %u asks for %u bytes: no %u\n", (unsigned)group, (unsigned)size, (unsigned)number);
}

static void give_back(uint32_t group, uint32_t offset)
{
    expect("return", nostrimel_free(meta, WORDS, group, offset), NOSTRIMEL_DONE);
    printf("group %u returns %u\n", (unsigned)group, (unsigned)offset);
}

static void pack_up(uint32_t group, uint32_t expected)
{
    uint32_t count;

    expect("reset", nostrimel_reset(meta, WORDS, group, &count), NOSTRIMEL_DONE);
    expect("blocks of the group", count, expected);
    printf("group %u packs up\n", (unsigned)group);
}

/* The display: a row for each group. */
static void show(void)
{
    struct nostrimel_holding list[NOSTRIMEL_GROUPS];
    unsigned i;

    expect("holdings", nostrimel_holdings(meta, WORDS, list, NOSTRIMEL_GROUPS), NOSTRIMEL_DONE);
    printf("group  blocks  held bytes  greatest\n");
    for (i = 0; i < NOSTRIMEL_GROUPS; i++) {
        printf("%5u%8u%12u%10u\n", i + 1, (unsigned)list[i].blocks, (unsigned)list[i].held, (unsigned)list[i].greatest);
    }
}

/* A list that is not of twelve records is refused, and no record of it is written. */
static void refused_list(size_t count)
{
    struct nostrimel_holding list[NOSTRIMEL_GROUPS + 1] = {{77, 77, 77}};

    expect("a wrong count", nostrimel_holdings(meta, WORDS, list, count), NOSTRIMEL_BAD_LIST);
    expect("a record after a refusal", list[0].blocks + list[0].held + list[0].greatest, 3 * 77);
    printf("a list of %u records: no %u\n", (unsigned)count, (unsigned)NOSTRIMEL_BAD_LIST);
}

int main(void)
{
    /* A block counts with its room: a chunk of 104 bytes for 100 and for 97, three pages for 9,000. */
    start();
    request(1, 100, 0);
    request(1, 100, 104);
    request(2, 97, 208);
    request(3, 9000, 8 * NOSTRIMEL_PAGE_BYTES);
    show();

    /* A return and a reset lower what is held, and leave the greatest as it was. A refusal changes nothing. */
    give_back(1, 0);
    refused(3, 81920, NOSTRIMEL_NO_ROOM);
    pack_up(3, 1);
    request(4, 8191, 8 * NOSTRIMEL_PAGE_BYTES);
    show();

    /* Sixteen pages, which are there only with those of the zone that group 4 has left. Group 4's figures have nothing to do with it. */
    give_back(4, 8 * NOSTRIMEL_PAGE_BYTES);
    request(1, 65536, 8 * NOSTRIMEL_PAGE_BYTES);
    show();

    refused_list(NOSTRIMEL_GROUPS - 1);
    refused_list(NOSTRIMEL_GROUPS + 1);

    /* Since the start, which is this one now. */
    start();
    show();
    return EXIT_SUCCESS;
}
