/* What the test programs for C share: arrays that lie between unreadable pages, so that a read or write past an end stops the
 * program; counts of checks; and numbers by chance, the same in every run. */
#ifndef GUARDED_H
#define GUARDED_H

#include <stdint.h>
#include <stdio.h>
#include <stdlib.h>
#include <string.h>
#include <sys/mman.h>
#include <unistd.h>

static long checks, failures;

static inline void fail(const char *name, const char *what)
{
    failures++;
    printf("%s: %s\n", name, what);
}

static inline void check(const char *name, int holds, const char *what)
{
    checks++;
    if (!holds)
        fail(name, what);
}

/* One array of a call: pages of room between two unreadable ones. */
struct block {
    uint8_t *low; /* the first readable byte */
    size_t room;
    uint8_t *at; /* where the array is */
    size_t len;
    uint8_t *window; /* the pages that hold the array, and what they held before the call */
    size_t pages;
    uint8_t *before;
};

static inline struct block block_new(size_t most)
{
    size_t page = (size_t)sysconf(_SC_PAGESIZE);
    struct block b = {0};
    b.room = (most / page + 1) * page;
    uint8_t *all = mmap(NULL, b.room + 2 * page, PROT_NONE, MAP_PRIVATE | MAP_ANONYMOUS, -1, 0);
    b.before = malloc(b.room);
    if (all == MAP_FAILED || b.before == NULL || mprotect(all + page, b.room, PROT_READ | PROT_WRITE) != 0) {
        perror("mmap");
        exit(2);
    }
    b.low = all + page;
    return b;
}

/* Where arrays lie: each ends where a page ends, or starts where one starts; or the first, and a null pointer stands for each that is
 * empty. */
enum { AT_START, AT_END, EMPTY_IS_NULL, PLACES };

/* The array's place: at the start of the room, or else ending at its end. The rest of its pages has a pattern. */
static inline void block_place(struct block *b, size_t len, int at_end)
{
    size_t page = (size_t)sysconf(_SC_PAGESIZE);
    if (len > b->room) {
        fprintf(stderr, "an array of %zu bytes has no room\n", len);
        exit(2);
    }
    b->len = len;
    b->pages = len == 0 ? page : (len + page - 1) / page * page;
    b->window = at_end ? b->low + (b->room - b->pages) : b->low;
    b->at = at_end ? b->low + (b->room - len) : b->low;
    memset(b->window, 0x5a, b->pages);
}

/* Notes what its pages hold, to be compared with later. */
static inline void block_note(struct block *b)
{
    memcpy(b->before, b->window, b->pages);
}

/* The array, as it was noted: what it is expected to hold may be put there. */
static inline uint8_t *block_noted(struct block *b)
{
    return b->before + (b->at - b->window);
}

/* All its pages hold what was noted. */
static inline int block_as_noted(const struct block *b)
{
    return memcmp(b->window, b->before, b->pages) == 0;
}

static inline void block_input(struct block *b, const uint8_t *bytes, size_t len, int at_end)
{
    block_place(b, len, at_end);
    if (len > 0)
        memcpy(b->at, bytes, len);
    block_note(b);
}

/* An output: before the call its places differ from each other. */
static inline void block_output(struct block *b, size_t len, int at_end)
{
    block_place(b, len, at_end);
    for (size_t i = 0; i < len; i++)
        b->at[i] = (uint8_t)(0xa0 + i * 7 + i / 256);
    block_note(b);
}

/* What is passed for it. */
static inline uint8_t *block_passed(const struct block *b, int place)
{
    return place == EMPTY_IS_NULL && b->len == 0 ? NULL : b->at;
}

/* What is passed for it is a null pointer. */
static inline int block_is_null(const struct block *b, int place)
{
    return block_passed(b, place) == NULL;
}

/* Of so many arrays, each a bit, all were passed as a null pointer once; how many, which tests/c/run adds up over all hosts. */
static inline void nulls_were_passed(const char *name, int arrays, uint64_t nulls)
{
    check(name, nulls == (UINT64_C(1) << arrays) - 1, "an array was never passed as a null pointer");
}

static inline void tell_nulls(int arrays)
{
    printf("null pointers for %d arrays\n", arrays);
}

static uint32_t seed = 20240607;
static const uint8_t *drawn, *drawn_end; /* where a fuzzer has given bytes, these come first */

static inline uint32_t chance(void)
{
    if (drawn_end - drawn >= 3) {
        drawn += 3;
        return (uint32_t)drawn[-3] | (uint32_t)drawn[-2] << 8 | (uint32_t)drawn[-1] << 16;
    }
    seed = seed * 1664525u + 1013904223u;
    return seed >> 8;
}

/* Once in so many times. */
static inline int once_in(uint32_t times)
{
    return chance() % times == 0;
}

#endif
