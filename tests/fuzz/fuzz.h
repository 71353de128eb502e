/* What the fuzz harnesses share: an input as a source of bytes, and blocks of memory of exact size. */
#ifndef FUZZ_H
#define FUZZ_H

#include "guarded.h"
#include "reference.h"

/* A harness demands; a failed demand ends the run, and the fuzzer keeps the input. */
static inline void demand(int holds, const char *what)
{
    if (!holds) {
        fprintf(stderr, "demanded: %s\n", what);
        abort();
    }
}

/* The bytes of an input in turn: its head once, then the rest over and over, so that a short input gives long arrays. */
struct source {
    const uint8_t *at;
    size_t len, head, next;
};

static inline uint8_t take(struct source *s)
{
    if (s->next == s->len)
        s->next = s->head < s->len ? s->head : s->len;
    return s->next < s->len ? s->at[s->next++] : 0;
}

static inline size_t take_word(struct source *s)
{
    size_t low = take(s);
    return low | (size_t)take(s) << 8;
}

/* A number of positions or reads: most often below some, else about the limit. */
static inline size_t take_count(struct source *s, size_t some, size_t limit)
{
    size_t n = take(s);
    return n < 240 ? n % some : limit - 8 + (n - 240);
}

/* The head ends here. */
static inline void start_data(struct source *s)
{
    s->head = s->next;
}

/* A length changed by up to 128 bytes. */
static inline size_t changed(size_t len, uint8_t by)
{
    size_t more = by < 128 ? by : 0, fewer = by < 128 ? 0 : 256u - by;
    return fewer > len ? 0 : len + more - fewer;
}

/* A block of exactly so many bytes: those given, or from the source, or a pattern in which places differ. */
static inline uint8_t *exactly(size_t len)
{
    uint8_t *block = malloc(len);
    demand(block != NULL, "memory");
    return block;
}

static inline uint8_t *exactly_taken(struct source *s, size_t len)
{
    uint8_t *block = exactly(len);
    for (size_t i = 0; i < len; i++)
        block[i] = take(s);
    return block;
}

static inline uint8_t *exactly_copied(const uint8_t *bytes, size_t len)
{
    uint8_t *block = exactly(len);
    if (len > 0)
        memcpy(block, bytes, len);
    return block;
}

static inline uint8_t pattern_at(size_t i)
{
    return (uint8_t)(0xa0 + i * 7 + i / 256);
}

static inline uint8_t *exactly_patterned(size_t len)
{
    uint8_t *block = exactly(len);
    for (size_t i = 0; i < len; i++)
        block[i] = pattern_at(i);
    return block;
}

/* From a place on a block is as it was. */
static inline int untouched(const uint8_t *block, size_t from, size_t len)
{
    for (size_t i = from; i < len; i++)
        if (block[i] != pattern_at(i))
            return 0;
    return 1;
}

static inline int same_bytes(const uint8_t *one, const uint8_t *other, size_t len)
{
    return len == 0 || memcmp(one, other, len) == 0;
}

#endif
