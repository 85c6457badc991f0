/*
 * Nostrimel: a proved memory allocator for one arena of 1 to 256 pages of 4,096 bytes, which groups 1 to 12 share.
 *
 * It hands out byte offsets from the arena's start and never reads or writes the arena. All it knows stands in 32-bit words
 * that the caller lends with each call, the metadata; between calls it keeps nothing anywhere else. Requests below 8,192 bytes
 * get a chunk in a zone of 8 pages, larger ones whole pages.
 *
 *     ./library                  writes target/nostrimel/libnostrimel.a and puts this file beside it
 *     ./library --prefix DIR     also installs both below DIR, with a file for pkg-config
 *     cc -std=c99 board.c $(PKG_CONFIG_PATH=DIR/lib/pkgconfig pkg-config --cflags --libs nostrimel)
 *
 * Compile with the header that came with the archive: a function's arguments can change from one archive to the next, and a linker does
 * not see that.
 *
 * For which processors. The archive is one ELF object for x86-64 (any: SSE2 is all that it needs) with the calling convention of
 * System V, which Linux uses; its code is position independent. Any other processor needs another archive, which the kit's compiler
 * does not write. A linker for one refuses this archive: GNU ld says "skipping incompatible .../libnostrimel.a when searching for
 * -lnostrimel" and "cannot find -lnostrimel", or of the file itself "Relocations in generic ELF (EM: 62)"; lld says
 * "libnostrimel.a(capi.o) is incompatible with aarch64linux".
 *
 * Answers. Every function returns 0, or the number of the refusal (enum nostrimel_refusal). Which numbers a function can return
 * stands at the function, in the order in which they are tested: the first that applies is returned. A refused call changes no
 * word of the metadata, no byte of the text and no record of the list. Results are written only where the function returns 0, but
 * for one: *looked of nostrimel_allocate is written by each of its calls, refused or not. A refused call writes nothing else
 * through its pointers.
 *
 * What the caller keeps. These are conditions of C, which no callee can test:
 *   - meta points to an array of that many words, text to one of capacity bytes, list to one of count records. None of them is
 *     NULL, even if the number is 0.
 *   - A pointer to a result (offset, looked, count, group, room, length) points to one such object and is not NULL.
 *   - What two pointers of one call point to does not overlap: not the metadata with a result, with the text or with the list,
 *     not two results.
 *   - While a call runs, nobody else writes what it was lent, or reads what it may write. There are no locks: calls on the same
 *     words take turns; only queries, listings and holdings may run beside each other.
 * Nothing is asked of what the words hold. Whatever stands in them, every call ends, and reads and writes nothing but what it was
 * lent; words that are no valid state are refused by NOSTRIMEL_NO_STATE. docs/LAYOUT.md says what the words mean.
 *
 * What the library needs: memset, and nothing else from outside (no heap, no input or output). It keeps nothing in static memory
 * but constants.
 *
 * How many words. An arena of N pages has its state in the first NOSTRIMEL_WORDS(N) words. More may be lent; the words behind are
 * never read or changed. A word is stored as the processor stores a uint32_t, which on x86-64 is the lowest byte first.
 *
 * What it costs.
 *   - Memory: four bytes a word, which is 4,352 bytes and 2,080 for each page. So the metadata are about half as large as the
 *     arena: 54,272 bytes for 24 pages (98,304 bytes), 536,832 for 256 (1,048,576).
 *   - Time: each call but nostrimel_init reads all of its state's words before it does anything, since any of them may be wrong. On
 *     one machine, and made by an older compiler, most calls took one to four microseconds at 24 pages and 6 to 52 at 256, by how many
 *     chunks were live; docs/PERFORMANCE.md has the others.
 *   - Stack: NOSTRIMEL_STACK_BYTES are enough for any call.
 */
#ifndef NOSTRIMEL_H
#define NOSTRIMEL_H

#include <stddef.h>
#include <stdint.h>

/* Results that must be looked at: a call's number says whether its other results were written (*looked is always). */
#if defined(__cplusplus) && __cplusplus >= 201703L
#define NOSTRIMEL_LOOK_AT [[nodiscard]]
#elif defined(__STDC_VERSION__) && __STDC_VERSION__ >= 202311L
#define NOSTRIMEL_LOOK_AT [[nodiscard]]
#elif defined(__GNUC__)
#define NOSTRIMEL_LOOK_AT __attribute__((warn_unused_result))
#else
#define NOSTRIMEL_LOOK_AT
#endif

#ifdef __cplusplus
extern "C" {
#endif

/*
 * Which layout the words have (docs/LAYOUT.md). It grows whenever the words of some state change, so words that were kept are to be
 * lent only to a library with the number of the one that wrote them. #if compares it.
 */
#define NOSTRIMEL_LAYOUT 3u

/* Bytes of a page, the most pages of an arena, and its groups: 1 to NOSTRIMEL_GROUPS. */
#define NOSTRIMEL_PAGE_BYTES 4096u
#define NOSTRIMEL_MAX_PAGES 256u
#define NOSTRIMEL_GROUPS 12u

/* The largest size that a request may name, in bytes: all of the largest arena. It is the largest ceiling of a group, too. */
#define NOSTRIMEL_MAX_SIZE 1048576u

/* How many words of metadata an arena of so many pages needs: 13,568 for 24 pages, 134,208 for 256. #if can compute it. */
#define NOSTRIMEL_WORDS(pages) (1088ul + 520ul * (pages))

/*
 * Bytes of stack that a call uses at most. That is measured and not proved: in twenty thousand calls of all kinds, on painted stacks,
 * none used more than 784, a request and a reset the most (tests/c/stack.c, which fails where a call uses more than this).
 */
#define NOSTRIMEL_STACK_BYTES 4096u

/* Bytes of the longest listing of any valid state (proved: none is longer, and one is that long). With a text of this capacity no
 * listing is refused for want of room; for an arena of 24 pages or fewer 207 are enough. */
#define NOSTRIMEL_LONGEST_LISTING 2220u

/* Why a call was refused. 11 is kept for later. */
enum nostrimel_refusal {
    NOSTRIMEL_DONE = 0,          /* not refused */
    NOSTRIMEL_BAD_PAGES = 1,     /* the number of pages is 0 or above 256 */
    NOSTRIMEL_FEW_WORDS = 2,     /* fewer words than so many pages need */
    NOSTRIMEL_NO_STATE = 3,      /* the words hold no valid state, or are fewer than theirs needs */
    NOSTRIMEL_BAD_GROUP = 4,     /* the group is not 1 to 12 */
    NOSTRIMEL_BAD_SIZE = 5,      /* the size is 0 or above 1,048,576, or the ceiling is above 1,048,576 */
    NOSTRIMEL_NO_ROOM = 6,       /* pages are needed, and no free run would have as many even after a trim */
    NOSTRIMEL_NO_BLOCK = 7,      /* no live block begins at the offset */
    NOSTRIMEL_OTHER_GROUP = 8,   /* the block is another group's */
    NOSTRIMEL_BAD_LIST = 9,      /* the list is not of 12 records */
    NOSTRIMEL_OVER_CEILING = 10, /* the group would hold more than its ceiling */
    NOSTRIMEL_SHORT_BUFFER = 12  /* the capacity is less than the listing's length */
};

/* What a group holds. A block counts with its room, as nostrimel_query tells it: 104 bytes for a request of 100. */
struct nostrimel_holding {
    uint32_t blocks;   /* its live blocks */
    uint32_t held;     /* its held bytes: the rooms of its live blocks together */
    uint32_t greatest; /* the greatest that held has been since nostrimel_init: only a request raises it, nothing lowers it */
};

/*
 * Makes the metadata those of a fresh arena: all pages free, no block live, and the ceiling of every group NOSTRIMEL_MAX_SIZE. Whatever
 * the words held is forgotten, an arena in use among them.
 * Refusals: BAD_PAGES, FEW_WORDS.
 */
NOSTRIMEL_LOOK_AT uint32_t nostrimel_init(uint32_t *meta, size_t words, uint32_t pages);

/*
 * Requests a block of at least size bytes for a group. *offset is where it begins, in bytes from the arena's start. The block is
 * live until the group returns it, and shares no byte with another live block.
 * The group's ceiling: if its held bytes and the new block's room together are more than the ceiling, the request is refused by
 * OVER_CEILING. Just the ceiling is granted. nostrimel_set_ceiling sets one; where nobody did, it is NOSTRIMEL_MAX_SIZE, so that a
 * group that holds anything is refused that many bytes by OVER_CEILING.
 * Where pages are needed and no free run has as many, every zone without a live chunk is given back as nostrimel_trim does, if then
 * one has; if not even then, the request is refused by NO_ROOM and nothing has been given back. So trimming before a request is
 * never needed for it to be granted.
 * How far it looked: *looked is the count of free runs that were looked at. A search goes through them from the lowest page up. It
 * counts those up to and including the first that has enough pages, or all of them if none has. If none has, a second search goes
 * through the runs as a trim would leave them, whether there is a zone to give back or not, and its count is added, whether it
 * finds one or not. *looked is 0 where no pages are needed, since a zone that stands gives the chunk, and where the request is
 * refused by NO_STATE, BAD_GROUP, BAD_SIZE or OVER_CEILING.
 * Its bound: no two runs touch, so an arena of N pages has at most (N + 1) / 2 of them, rounded down. One search looks at no more,
 * and a request at no more than twice as many: at most 24 for 24 pages, at most 256 for 256.
 * Written: *offset only where the function returns 0, *looked always.
 * Alignment: *offset is a multiple of every power of two up to 4,096 that divides the block's room (the size rounded up). So it is
 * a multiple of 8 always, of 16 from 128 bytes up, of 32 from 256, of 64 from 512, of 128 from 1,024, of 256 from 2,048, of 512
 * from 4,096, of 4,096 from 8,192; and a request of 64 bytes begins at a multiple of 64. The address arena + *offset is aligned so
 * as far as the arena's start is.
 * Refusals: NO_STATE, BAD_GROUP, BAD_SIZE, OVER_CEILING, NO_ROOM.
 */
NOSTRIMEL_LOOK_AT uint32_t nostrimel_allocate(uint32_t *meta, size_t words, uint32_t group, uint32_t size, uint32_t *offset,
                                              uint32_t *looked);

/*
 * Returns the group's live block that begins at the offset.
 * Refusals: NO_STATE, BAD_GROUP, NO_BLOCK (a second return and an offset inside a block among them), OTHER_GROUP.
 */
NOSTRIMEL_LOOK_AT uint32_t nostrimel_free(uint32_t *meta, size_t words, uint32_t group, uint32_t offset);

/*
 * Returns all live blocks of a group, in ascending offset, each as nostrimel_free would. *count is how many there were; 0 is
 * possible.
 * Refusals: NO_STATE, BAD_GROUP.
 */
NOSTRIMEL_LOOK_AT uint32_t nostrimel_reset(uint32_t *meta, size_t words, uint32_t group, uint32_t *count);

/*
 * Gives the pages of every zone without a live chunk back. *count is how many zones there were; 0 is possible.
 * Refusals: NO_STATE.
 */
NOSTRIMEL_LOOK_AT uint32_t nostrimel_trim(uint32_t *meta, size_t words, uint32_t *count);

/*
 * Tells of the live block that begins at the offset: the group that holds it, and its room in bytes, which is the size asked for
 * rounded up to the chunk's or to whole pages. Changes no word.
 * Refusals: NO_STATE, NO_BLOCK.
 */
NOSTRIMEL_LOOK_AT uint32_t nostrimel_query(const uint32_t *meta, size_t words, uint32_t offset, uint32_t *group, uint32_t *room);

/*
 * Writes the listing at the front of the text; *length is its bytes. Later bytes stay, and no NUL is written behind it. It is
 * ASCII, each line ended by LF: "runs" and how many free runs there are, then a line for each (start page, pages); "direct" and
 * the blocks of whole pages (start page, pages, group); "zones" and the zones (start page, class, live chunks); each section in
 * ascending order of start pages. Changes no word.
 * Refusals: NO_STATE, SHORT_BUFFER.
 */
NOSTRIMEL_LOOK_AT uint32_t nostrimel_listing(const uint32_t *meta, size_t words, uint8_t *text, size_t capacity, size_t *length);

/*
 * Fills a list of count records with what each group holds: list[0] is group 1's record, list[NOSTRIMEL_GROUPS - 1] the last
 * group's. count has to be NOSTRIMEL_GROUPS; a list with fewer or more records is refused, and no record is written then. Changes no
 * word.
 * The figures stand in the words, and every call keeps them true; words in which they disagree with the blocks are no valid state.
 * nostrimel_init sets them all to 0. (Ceilings are not among them: docs/LAYOUT.md says in which words they stand.)
 * Refusals: NO_STATE, BAD_LIST.
 */
NOSTRIMEL_LOOK_AT uint32_t nostrimel_holdings(const uint32_t *meta, size_t words, struct nostrimel_holding *list, size_t count);

/*
 * Sets the ceiling of a group, in bytes: the most that its requests may bring it to hold, 0 to NOSTRIMEL_MAX_SIZE. It stays until it is
 * set again, or nostrimel_init sets all of them to NOSTRIMEL_MAX_SIZE. A ceiling of 0 refuses every request of the group.
 * A ceiling below what the group holds takes nothing away: its blocks stay live, and it can return them. It is granted no block then
 * until it holds so much less that the block's room fits. A room is what counts, as nostrimel_query tells it, and not the size: 104 bytes
 * for a request of 100. As long as no ceiling is set below what its group holds, no group ever holds more than its ceiling.
 * Refusals: NO_STATE, BAD_GROUP, BAD_SIZE (the ceiling is above NOSTRIMEL_MAX_SIZE).
 */
NOSTRIMEL_LOOK_AT uint32_t nostrimel_set_ceiling(uint32_t *meta, size_t words, uint32_t group, uint32_t ceiling);

#ifdef __cplusplus
}
#endif

#endif
