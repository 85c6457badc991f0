/*
 * How much stack a call needs, in bytes: measured, since nothing proves it. Every call is made on a stack of its own that was painted
 * before, on arenas of many kinds, and what is no longer paint afterwards was used. It prints the most that each call used, and ends with
 * status 1 if one used more than NOSTRIMEL_STACK_BYTES, which is what the header promises.
 *
 * What the C library's memset uses is in it, and a few words of this program's own between the stack's top and the call.
 */
#define _XOPEN_SOURCE 700
#include <nostrimel.h>

#include <stdio.h>
#include <stdlib.h>
#include <string.h>
#include <ucontext.h>

enum { STACK = 65536, WORDS = NOSTRIMEL_WORDS(NOSTRIMEL_MAX_PAGES), PAINT = 0xa5 };

enum call { INIT, ALLOCATE, FREE, RESET, TRIM, QUERY, LISTING, HOLDINGS, SET_CEILING, CALLS };

static const char *const names[CALLS] = {"init", "allocate", "free", "reset", "trim", "query", "listing", "holdings", "set_ceiling"};

static uint32_t meta[WORDS];
static uint8_t text[NOSTRIMEL_LONGEST_LISTING];
static struct nostrimel_holding list[NOSTRIMEL_GROUPS + 1];
static unsigned char stack[STACK];
static ucontext_t here, there;

/* What is asked, and what came. */
static enum call which;
static uint32_t first, second, answer, offset, looked, count, group, room;
static size_t length;

/* The most that each call has used, and how often it was made. */
static size_t most[CALLS];
static unsigned long made[CALLS];

/* On the painted stack: one call. */
static void make(void)
{
    switch (which) {
    case INIT: answer = nostrimel_init(meta, WORDS, first); break;
    case ALLOCATE: answer = nostrimel_allocate(meta, WORDS, first, second, &offset, &looked); break;
    case FREE: answer = nostrimel_free(meta, WORDS, first, second); break;
    case RESET: answer = nostrimel_reset(meta, WORDS, first, &count); break;
    case TRIM: answer = nostrimel_trim(meta, WORDS, &count); break;
    case QUERY: answer = nostrimel_query(meta, WORDS, first, &group, &room); break;
    case LISTING: answer = nostrimel_listing(meta, WORDS, text, sizeof text, &length); break;
    case HOLDINGS: answer = nostrimel_holdings(meta, WORDS, list, first); break;
    case SET_CEILING: answer = nostrimel_set_ceiling(meta, WORDS, first, second); break;
    case CALLS: break;
    }
}

static void on_its_own_stack(void)
{
    getcontext(&there);
    there.uc_stack.ss_sp = stack;
    there.uc_stack.ss_size = sizeof stack;
    there.uc_link = &here;
    makecontext(&there, make, 0);
    swapcontext(&here, &there);
}

/* One call, and what it used of the stack, which grows downwards. */
static uint32_t call(enum call asked, uint32_t one, uint32_t two)
{
    size_t clean = 0;

    which = asked;
    first = one;
    second = two;
    memset(stack, PAINT, sizeof stack);
    on_its_own_stack();
    while (clean < sizeof stack && stack[clean] == PAINT) {
        clean++;
    }
    if (sizeof stack - clean > most[asked]) {
        most[asked] = sizeof stack - clean;
    }
    made[asked]++;
    return answer;
}

/* Numbers in no order, the same in every run. */
static uint32_t draw(uint32_t below)
{
    static uint64_t state = 88172645463325252u;

    state ^= state << 13;
    state ^= state >> 7;
    state ^= state << 17;
    return (uint32_t)(state % below);
}

/* A request of any kind: chunks of every class, whole pages, and sizes that are refused. */
static uint32_t any_size(void)
{
    switch (draw(4)) {
    case 0: return draw(130);
    case 1: return draw(8192);
    case 2: return 8192 + draw(60000);
    default: return 1u << draw(22);
    }
}

/* A ceiling of any kind: mostly the largest, so that requests are granted too. */
static uint32_t any_ceiling(void)
{
    return draw(3) > 0 ? 1048576 : any_size();
}

/* A history on an arena of so many pages: every call, granted and refused. */
static void history(uint32_t pages, unsigned turns)
{
    enum { KEPT = 64 };
    uint32_t offsets[KEPT] = {0}, owners[KEPT] = {0};

    call(INIT, pages, 0);
    while (turns-- > 0) {
        unsigned at = draw(KEPT);

        switch (draw(14)) {
        case 0: call(RESET, draw(14), 0); break;
        case 1: call(TRIM, 0, 0); break;
        case 2: call(LISTING, 0, 0); break;
        case 3: call(HOLDINGS, NOSTRIMEL_GROUPS - 1 + draw(3), 0); break;
        case 4: call(SET_CEILING, draw(14), any_ceiling()); break;
        case 5:
        case 6: call(QUERY, offsets[at] + draw(2), 0); break;
        case 7:
        case 8:
        case 9: call(FREE, owners[at] + draw(2), offsets[at]); break;
        default:
            owners[at] = draw(14);
            if (call(ALLOCATE, owners[at], any_size()) == NOSTRIMEL_DONE) {
                offsets[at] = offset;
            }
        }
    }
}

/* What makes a listing long, and a reset. */
static void crowds(void)
{
    uint32_t size;

    for (size = 8; size <= 16384; size *= 2) {
        uint32_t turns = 0;

        call(INIT, NOSTRIMEL_MAX_PAGES, 0);
        while (turns++ < 600 && call(ALLOCATE, NOSTRIMEL_GROUPS, size) == NOSTRIMEL_DONE) {
        }
        call(LISTING, 0, 0);
        call(HOLDINGS, NOSTRIMEL_GROUPS, 0);
        call(SET_CEILING, NOSTRIMEL_GROUPS, size);
        call(ALLOCATE, NOSTRIMEL_GROUPS, size);
        call(RESET, NOSTRIMEL_GROUPS, 0);
        call(TRIM, 0, 0);
        call(LISTING, 0, 0);
    }
}

int main(void)
{
    uint32_t pages;
    unsigned asked;
    int status = EXIT_SUCCESS;

    /* Once in advance: a function of the C library is looked up at its first call, on the stack that is there. */
    for (asked = 0; asked < CALLS; asked++) {
        call((enum call)asked, 1, 1);
    }
    memset(most, 0, sizeof most);
    memset(made, 0, sizeof made);

    /* Words that are no arena; then many that are. */
    for (asked = 0; asked < CALLS; asked++) {
        call((enum call)asked, 0, 0);
        memset(meta, 0, sizeof meta);
        call((enum call)asked, 1, 1);
        memset(meta, PAINT, sizeof meta);
    }
    for (pages = 0; pages <= NOSTRIMEL_MAX_PAGES + 1; pages += pages < 40 ? 1 : 31) {
        history(pages, 300);
    }
    crowds();
    for (asked = 0; asked < CALLS; asked++) {
        printf("%-11s %4u bytes of stack at most, in %lu calls\n", names[asked], (unsigned)most[asked], made[asked]);
        if (made[asked] < 40 || most[asked] > NOSTRIMEL_STACK_BYTES) {
            status = EXIT_FAILURE;
        }
    }
    if (status != EXIT_SUCCESS) {
        fprintf(stderr, "more stack than the %u bytes that the header names, or too few calls\n", (unsigned)NOSTRIMEL_STACK_BYTES);
    }
    return status;
}
