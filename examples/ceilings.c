/*
 * A ceiling for each group: group 7 would take the whole arena for a picture, and the teacher sets it a ceiling. The guide makes the same
 * calls and explains the answers (docs/GUIDE.md, "A ceiling for each group").
 *
 *     ./library
 *     cc -std=c99 -Wall -Wextra -Wpedantic -Werror -Itarget/nostrimel examples/ceilings.c target/nostrimel/libnostrimel.a
 *
 * It prints what ceilings.out holds. Every answer is compared with the expected one; the first that differs ends it with status 1. It is
 * C99, and C++17 as well.
 */
#include <nostrimel.h>

#include <stdio.h>
#include <stdlib.h>

#define PAGES 24u
#define WORDS NOSTRIMEL_WORDS(PAGES)

/* The metadata. There is no arena here: what is granted and what is not is all that this program looks at. */
static uint32_t meta[WORDS];

/* Ends the program unless what came is what was expected. */
static void expect(const char *what, unsigned long came, unsigned long expected)
{
    if (came != expected) {
        fprintf(stderr, "%s: %lu came, %lu was expected\n", what, came, expected);
        exit(EXIT_FAILURE);
    }
}

/* A fresh arena. */
static void start(void)
{
    expect("init", nostrimel_init(meta, WORDS, PAGES), NOSTRIMEL_DONE);
    printf("-- %u pages, fresh\n", (unsigned)PAGES);
}

/* The teacher sets a ceiling, or is refused. */
static void ceiling(uint32_t group, uint32_t bytes, enum nostrimel_refusal expected)
{
    uint32_t number = nostrimel_set_ceiling(meta, WORDS, group, bytes);

    expect("set_ceiling", number, (unsigned long)expected);
    printf("group %u gets a ceiling of %u bytes: ", (unsigned)group, (unsigned)bytes);
    if (number == NOSTRIMEL_DONE) {
        printf("ok\n");
    } else {
        printf("no %u\n", (unsigned)number);
    }
}

/* A request that is granted at the expected offset. */
static void request(uint32_t group, uint32_t size, uint32_t expected)
{
    uint32_t offset, looked;

    expect("request", nostrimel_allocate(meta, WORDS, group, size, &offset, &looked), NOSTRIMEL_DONE);
    expect("offset", offset, expected);
    printf("group %u asks for %u bytes: at %u\n", (unsigned)group, (unsigned)size, (unsigned)offset);
}

/* A request that is refused. Where that is for the ceiling, no run was looked at. */
static void refused(uint32_t group, uint32_t size, enum nostrimel_refusal expected)
{
    uint32_t offset, looked;
    uint32_t number = nostrimel_allocate(meta, WORDS, group, size, &offset, &looked);

    expect("refusal", number, (unsigned long)expected);
    if (number == NOSTRIMEL_OVER_CEILING) {
        expect("runs", looked, 0);
    }
    printf("group %u asks for %u bytes: no %u\n", (unsigned)group, (unsigned)size, (unsigned)number);
}

static void give_back(uint32_t group, uint32_t offset)
{
    expect("return", nostrimel_free(meta, WORDS, group, offset), NOSTRIMEL_DONE);
    printf("group %u returns %u\n", (unsigned)group, (unsigned)offset);
}

/* What a group holds, of the twelve records that the display fetches. */
static void show(uint32_t group)
{
    struct nostrimel_holding list[NOSTRIMEL_GROUPS];

    expect("holdings", nostrimel_holdings(meta, WORDS, list, NOSTRIMEL_GROUPS), NOSTRIMEL_DONE);
    printf("group %u holds %u bytes\n", (unsigned)group, (unsigned)list[group - 1].held);
}

int main(void)
{
    /* Nobody has set a ceiling: all pages for one picture, and nothing is left for the others. */
    start();
    request(7, 98304, 0);
    refused(1, 100, NOSTRIMEL_NO_ROOM);

    /* Half of the pages are enough for group 7. Just the ceiling is granted; one byte more, which takes a chunk of 8, is not. */
    start();
    ceiling(7, 49152, NOSTRIMEL_DONE);
    refused(7, 98304, NOSTRIMEL_OVER_CEILING);
    request(7, 49152, 0);
    refused(7, 1, NOSTRIMEL_OVER_CEILING);
    request(1, 100, 12 * NOSTRIMEL_PAGE_BYTES);

    /* A lower ceiling takes nothing away. What comes back is not granted again before it fits, by its room: 9,000 bytes are three pages. */
    ceiling(7, 9000, NOSTRIMEL_DONE);
    show(7);
    give_back(7, 0);
    show(7);
    refused(7, 9000, NOSTRIMEL_OVER_CEILING);
    ceiling(7, 12288, NOSTRIMEL_DONE);
    request(7, 9000, 0);

    /* What cannot be set. The ceiling stays as it is. */
    ceiling(13, 0, NOSTRIMEL_BAD_GROUP);
    ceiling(7, NOSTRIMEL_MAX_SIZE + 1, NOSTRIMEL_BAD_SIZE);
    refused(7, 1, NOSTRIMEL_OVER_CEILING);

    /* A start sets all of them to 1,048,576 bytes. So much is refused to who holds anything, be there room or not. */
    start();
    request(7, 98304, 0);
    refused(7, NOSTRIMEL_MAX_SIZE, NOSTRIMEL_OVER_CEILING);
    refused(1, NOSTRIMEL_MAX_SIZE, NOSTRIMEL_NO_ROOM);
    return EXIT_SUCCESS;
}
