/*
 * How far does a request look? One arena of 24 pages with holes in it, and a table of requests: what was asked for, the answer, and how
 * many free runs were looked at. The guide draws the same arena and explains the figures (docs/GUIDE.md, "How far did it look?").
 *
 *     ./library
 *     cc -std=c99 -Wall -Wextra -Wpedantic -Werror -Itarget/nostrimel examples/timing.c target/nostrimel/libnostrimel.a
 *
 * It prints what timing.out holds. Every answer and every count is compared with the expected one; the first that differs ends it with
 * status 1. It is C99, and C++17 as well.
 */
#include <nostrimel.h>

#include <stdio.h>
#include <stdlib.h>

#define PAGES 24u
#define WORDS NOSTRIMEL_WORDS(PAGES)

/* The metadata. There is no arena here: the offsets are all that this program looks at. */
static uint32_t meta[WORDS];

/* Ends the program unless what came is what was expected. */
static void expect(const char *what, unsigned long came, unsigned long expected)
{
    if (came != expected) {
        fprintf(stderr, "%s: %lu came, %lu was expected\n", what, came, expected);
        exit(EXIT_FAILURE);
    }
}

/* A block that the arena is built with: so many pages, at this page. */
static void build(uint32_t group, uint32_t pages, uint32_t start)
{
    uint32_t offset, looked;
    uint32_t number = nostrimel_allocate(meta, WORDS, group, pages * NOSTRIMEL_PAGE_BYTES, &offset, &looked);

    expect("a block", number, NOSTRIMEL_DONE);
    expect("its page", offset / NOSTRIMEL_PAGE_BYTES, start);
    expect("one run so far", looked, 1);
}

/* What the columns of a table are. */
static void head(void)
{
    printf("group  bytes  answer    runs looked at\n");
}

/* A request that is granted, as a row. The block comes back at once, so that the next request meets the same free pages. */
static void granted(uint32_t group, uint32_t size, uint32_t expected, uint32_t runs)
{
    uint32_t offset, looked;

    expect("request", nostrimel_allocate(meta, WORDS, group, size, &offset, &looked), NOSTRIMEL_DONE);
    expect("offset", offset, expected);
    expect("runs looked at", looked, runs);
    printf("%5u%7u  at %-7u%14u\n", (unsigned)group, (unsigned)size, (unsigned)offset, (unsigned)looked);
    expect("return", nostrimel_free(meta, WORDS, group, offset), NOSTRIMEL_DONE);
}

/* A request that is refused, as a row: the count is there, the offset is not written. */
static void refused(uint32_t group, uint32_t size, enum nostrimel_refusal expected, uint32_t runs)
{
    uint32_t offset = 77, looked;
    uint32_t number = nostrimel_allocate(meta, WORDS, group, size, &offset, &looked);

    expect("refusal", number, (unsigned long)expected);
    expect("offset after a refusal", offset, 77);
    expect("runs looked at", looked, runs);
    printf("%5u%7u  no %-7u%14u\n", (unsigned)group, (unsigned)size, (unsigned)number, (unsigned)looked);
}

/* Free runs (start page, pages), blocks of whole pages (start page, pages, group), zones (start page, class, live chunks). */
static void list(const char *title)
{
    static uint8_t text[NOSTRIMEL_LONGEST_LISTING];
    size_t length;

    expect("listing", nostrimel_listing(meta, WORDS, text, sizeof text, &length), NOSTRIMEL_DONE);
    printf("-- %s\n", title);
    fwrite(text, 1, length, stdout);
    printf("--\n");
}

int main(void)
{
    uint32_t chunk, looked, count;

    /* Three blocks of group 1 with blocks of group 2 between them, then a zone with one chunk of group 3; three pages stay free. */
    expect("init", nostrimel_init(meta, WORDS, PAGES), NOSTRIMEL_DONE);
    build(1, 2, 0);
    build(2, 2, 2);
    build(1, 3, 4);
    build(2, 2, 7);
    build(1, 4, 9);
    expect("a chunk", nostrimel_allocate(meta, WORDS, 3, 8191, &chunk, &looked), NOSTRIMEL_DONE);

    /* Group 1 packs up: where its blocks were, there are holes of 2, 3 and 4 pages. */
    expect("reset", nostrimel_reset(meta, WORDS, 1, &count), NOSTRIMEL_DONE);
    expect("blocks of group 1", count, 3);
    list("four runs, and a zone with a live chunk");

    /* A search stops at the first run that has enough pages. */
    head();
    granted(4, 8192, 0, 1);
    granted(4, 12288, 4 * NOSTRIMEL_PAGE_BYTES, 2);
    granted(4, 16384, 9 * NOSTRIMEL_PAGE_BYTES, 3);
    /* Five pages in a row, and eight for a new zone, are nowhere. The search is made twice, with four runs each time. */
    refused(4, 20480, NOSTRIMEL_NO_ROOM, 8);
    refused(4, 100, NOSTRIMEL_NO_ROOM, 8);
    /* The zone has a chunk of this size, so no pages are needed. What is wrong in itself is refused before any search. */
    granted(4, 8191, 15 * NOSTRIMEL_PAGE_BYTES, 0);
    refused(13, 8192, NOSTRIMEL_BAD_GROUP, 0);
    refused(4, 0, NOSTRIMEL_BAD_SIZE, 0);

    /* Nobody holds anything in the zone any more. With its pages given back there would be three runs: the second search has three. */
    expect("return of the chunk", nostrimel_free(meta, WORDS, 3, chunk), NOSTRIMEL_DONE);
    list("four runs, and a zone without one");
    head();
    granted(4, 16384, 9 * NOSTRIMEL_PAGE_BYTES, 3);
    refused(4, 65536, NOSTRIMEL_NO_ROOM, 4 + 3);
    granted(4, 20480, 9 * NOSTRIMEL_PAGE_BYTES, 4 + 3);

    /* That request had the zone given back. The next one finds its pages in the first search. */
    list("three runs, and no zone");
    head();
    granted(4, 20480, 9 * NOSTRIMEL_PAGE_BYTES, 3);
    return EXIT_SUCCESS;
}
