/*
 * A board of 24 pages that several groups share: requests, a refusal, a return, a reset, a trim, and the listing in between. Two groups
 * write to their blocks and read back what they wrote.
 *
 *     ./library
 *     cc -std=c99 -Wall -Wextra -Wpedantic -Werror -Itarget/nostrimel examples/board.c target/nostrimel/libnostrimel.a
 *
 * It prints what board.out holds. Every answer is compared with the expected one; the first that differs ends it with status 1. It is
 * C99, and C++17 as well.
 */
#include <nostrimel.h>

#include <stdio.h>
#include <stdlib.h>
#include <string.h>

#if NOSTRIMEL_LAYOUT != 3
#error "This program was written for words of layout 3."
#endif

#define PAGES 24u
#define WORDS NOSTRIMEL_WORDS(PAGES)

/* The metadata, which the library is lent with each call. */
static uint32_t meta[WORDS];

/*
 * The arena, which the library never sees: it hands out offsets from its start. A block begins where the arena begins plus the offset, and
 * is aligned as the offset is, up to the alignment of the arena: here that of its first member.
 */
static union {
    uint64_t aligned;
    unsigned char bytes[PAGES * NOSTRIMEL_PAGE_BYTES];
} arena;

/* The block that begins at an offset. */
static unsigned char *block(uint32_t offset)
{
    return arena.bytes + offset;
}

/* Ends the program unless what came is what was expected. */
static void expect(const char *what, unsigned long came, unsigned long expected)
{
    if (came != expected) {
        fprintf(stderr, "%s: %lu came, %lu was expected\n", what, came, expected);
        exit(EXIT_FAILURE);
    }
}

/* A request that is granted at the expected offset. What it says of the free runs, timing.c shows. */
static uint32_t request(uint32_t group, uint32_t size, uint32_t expected)
{
    uint32_t offset, looked;

    expect("request", nostrimel_allocate(meta, WORDS, group, size, &offset, &looked), NOSTRIMEL_DONE);
    expect("offset", offset, expected);
    printf("group %2u asks for %5u bytes: at %5u\n", (unsigned)group, (unsigned)size, (unsigned)offset);
    return offset;
}

/* A request that is refused. The offset is not written; the count of free runs is. */
static void refused(uint32_t group, uint32_t size, enum nostrimel_refusal expected)
{
    uint32_t offset = 77, looked = 77;
    uint32_t number = nostrimel_allocate(meta, WORDS, group, size, &offset, &looked);

    expect("refusal", number, (unsigned long)expected);
    expect("offset after a refusal", offset, 77);
    expect("a count after a refusal", looked != 77, 1);
    printf("group %2u asks for %5u bytes: no %u\n", (unsigned)group, (unsigned)size, (unsigned)number);
}

/* A return, served or refused. */
static void give_back(uint32_t group, uint32_t offset, enum nostrimel_refusal expected)
{
    uint32_t number = nostrimel_free(meta, WORDS, group, offset);

    expect("return", number, (unsigned long)expected);
    printf("group %2u returns %u: ", (unsigned)group, (unsigned)offset);
    if (number == NOSTRIMEL_DONE) {
        printf("done\n");
    } else {
        printf("no %u\n", (unsigned)number);
    }
}

/* All blocks of a group come back, and there are as many as expected. */
static void pack_up(uint32_t group, uint32_t expected)
{
    uint32_t count;

    expect("reset", nostrimel_reset(meta, WORDS, group, &count), NOSTRIMEL_DONE);
    expect("blocks of the group", count, expected);
    printf("group %2u packs up: %u block\n", (unsigned)group, (unsigned)count);
}

/* Whose block begins at an offset, and how long it is. */
static void ask(uint32_t offset, uint32_t expected_group, uint32_t expected_room)
{
    uint32_t group, room;

    expect("query", nostrimel_query(meta, WORDS, offset, &group, &room), NOSTRIMEL_DONE);
    expect("group", group, expected_group);
    expect("room", room, expected_room);
    printf("at %u: %u bytes of group %u\n", (unsigned)offset, (unsigned)room, (unsigned)group);
}

/* Writes a note to a block. A block has as many bytes as were asked for, and these are fewer. */
static void write_note(uint32_t group, uint32_t offset, const char *note)
{
    memcpy(block(offset), note, strlen(note) + 1);
    printf("group %2u writes to %u: %s\n", (unsigned)group, (unsigned)offset, note);
}

/* Reads it back. */
static void read_note(uint32_t group, uint32_t offset, const char *expected)
{
    const char *note = (const char *)block(offset);

    expect("note", strcmp(note, expected) == 0, 1);
    printf("group %2u reads at %u: %s\n", (unsigned)group, (unsigned)offset, note);
}

/*
 * Free runs (start page, pages), blocks of whole pages (start page, pages, group), zones (start page, class, live chunks). The text
 * has no NUL at its end; its length says where that is.
 */
static void list(void)
{
    static uint8_t text[NOSTRIMEL_LONGEST_LISTING];
    size_t length;

    expect("listing", nostrimel_listing(meta, WORDS, text, sizeof text, &length), NOSTRIMEL_DONE);
    printf("-- %u bytes\n", (unsigned)length);
    fwrite(text, 1, length, stdout);
    printf("--\n");
}

int main(void)
{
    uint32_t small, neighbour, large, count;

    /* Words that nobody has started are no state: they are static, so all zero. */
    expect("trim before init", nostrimel_trim(meta, WORDS, &count), NOSTRIMEL_NO_STATE);
    expect("init", nostrimel_init(meta, WORDS, PAGES), NOSTRIMEL_DONE);
    printf("%u pages, %u words of metadata\n", (unsigned)PAGES, (unsigned)WORDS);

    /* 100 bytes are a chunk of 104 in a zone of 8 pages; 9,000 bytes are three pages; 8,191 bytes are the largest chunk. */
    small = request(1, 100, 0);
    neighbour = request(2, 97, 104);
    large = request(3, 9000, 8 * NOSTRIMEL_PAGE_BYTES);
    request(1, 8191, 11 * NOSTRIMEL_PAGE_BYTES);
    ask(small, 1, 104);
    ask(large, 3, 3 * NOSTRIMEL_PAGE_BYTES);

    /* The groups fill their blocks to the last byte asked for, and none writes over another's. */
    memset(block(neighbour), 2, 97);
    memset(block(large), 3, 9000);
    write_note(1, small, "relay 7 on");
    write_note(3, large, "a script of 9,000 bytes");
    read_note(1, small, "relay 7 on");
    read_note(3, large, "a script of 9,000 bytes");
    expect("group 2's first byte", block(neighbour)[0], 2);
    expect("group 2's last byte", block(neighbour)[96], 2);
    expect("group 3's last byte", block(large)[8999], 3);

    /* Five pages are left, and these would be six. */
    refused(4, 24576, NOSTRIMEL_NO_ROOM);
    refused(13, 24576, NOSTRIMEL_BAD_GROUP);
    list();

    /* A block comes back once, and from its own group. */
    give_back(2, small, NOSTRIMEL_OTHER_GROUP);
    give_back(1, small, NOSTRIMEL_DONE);
    give_back(1, small, NOSTRIMEL_NO_BLOCK);

    /* The untouched chunks of a zone go out before the returned ones. */
    request(5, 104, 208);

    /*
     * Group 1 packs up. Its zone of large chunks is empty then, and keeps its pages until they are needed. With them 13 pages would be
     * free in a row. Fourteen are refused, and the zone stays; six are granted, and the zone is given back for them.
     */
    pack_up(1, 1);
    refused(4, 57344, NOSTRIMEL_NO_ROOM);
    list();
    request(4, 24576, 11 * NOSTRIMEL_PAGE_BYTES);
    list();

    /* Groups 2 and 5 pack up too. A trim gives the other zone back, though nobody asks for its pages. */
    pack_up(2, 1);
    pack_up(5, 1);
    expect("trim", nostrimel_trim(meta, WORDS, &count), NOSTRIMEL_DONE);
    expect("zones given back", count, 1);
    printf("trim: %u zone given back\n", (unsigned)count);
    list();
    return EXIT_SUCCESS;
}
