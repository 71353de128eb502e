/* Lists of numbers, lent to an entry as arrays of its own widths that lie against unreadable pages (guarded.h), in every place there; what
 * each output is expected to hold; lists by chance; and which rows of the refusal table each entry was seen to answer with. */
#ifndef LISTS_H
#define LISTS_H

#include "gedrashiw.h"
#include "guarded.h"

enum { MOST_NUMBERS = 1030, MOST_BLOCKS = 40, MOST_BLOCK = 32768, MOST_OUTPUTS = 16, ROWS = GEDRASHIW_OVER_LIMIT + 1 };

struct list {
    size_t n;
    uint32_t v[MOST_NUMBERS];
};

static int place;
static struct block lent_blocks[MOST_BLOCKS], *lent_outputs[MOST_OUTPUTS];
static int lent_count;

static inline void make_lent_blocks(void)
{
    for (int k = 0; k < MOST_BLOCKS; k++)
        lent_blocks[k] = block_new(MOST_BLOCK);
}

static inline void put_list(uint8_t *at, int width, const struct list *l)
{
    for (size_t i = 0; i < l->n; i++)
        for (int k = 0; k < width; k++)
            at[(size_t)width * i + (size_t)k] = (uint8_t)(l->v[i] >> 8 * k);
}

static inline struct block *lend_bytes(const void *bytes, size_t size)
{
    struct block *b = &lent_blocks[lent_count++];
    block_input(b, bytes, size, place);
    return b;
}

static inline struct block *lend_list(int width, const struct list *l)
{
    static uint8_t bytes[4 * MOST_NUMBERS];
    put_list(bytes, width, l);
    return lend_bytes(bytes, (size_t)width * l->n);
}

static inline const void *lent(int width, const struct list *l)
{
    return block_passed(lend_list(width, l), place);
}

static inline const void *lent_parts(const void *parts, size_t size)
{
    return block_passed(lend_bytes(parts, size), place);
}

/* Output k, of so much room; and an array that is read and written. */
static inline void *lent_output(int k, int width, size_t room)
{
    struct block *b = &lent_blocks[lent_count++];
    block_output(b, (size_t)width * room, place);
    lent_outputs[k] = b;
    return block_passed(b, place);
}

static inline void *lent_inout(int k, int width, const struct list *l)
{
    lent_outputs[k] = lend_list(width, l);
    return block_passed(lent_outputs[k], place);
}

#define IN8(l) (const uint8_t *)lent(1, &(l)), (l).n
#define IN16(l) (const uint16_t *)lent(2, &(l)), (l).n
#define IN32(l) (const uint32_t *)lent(4, &(l)), (l).n
#define OUT8(k, room) (uint8_t *)lent_output(k, 1, room), room
#define OUT16(k, room) (uint16_t *)lent_output(k, 2, room), room
#define OUT32(k, room) (uint32_t *)lent_output(k, 4, room), room
#define INOUT8(k, l) (uint8_t *)lent_inout(k, 1, &(l)), (l).n
#define INOUT32(k, l) (uint32_t *)lent_inout(k, 4, &(l)), (l).n

/* The front of output k is expected to hold a list. */
static inline void expect(int k, int width, const struct list *l)
{
    put_list(block_noted(lent_outputs[k]), width, l);
}

/* Of each entry: which rows of the refusal table it was seen to answer with, how many arrays it has, and which of them were passed as a null
 * pointer, a bit each. */
struct seen {
    const char *name;
    long of[ROWS];
    int arrays;
    uint64_t nulls;
};

static struct seen all_seen[64];

static inline struct seen *seen_of(const char *name)
{
    struct seen *s = all_seen;
    while (s->name != NULL && strcmp(s->name, name) != 0)
        s++;
    s->name = name;
    return s;
}

/* After a call: every array, and what lies around it, is as it was or as is expected. */
static inline void settle(const char *name)
{
    struct seen *s = seen_of(name);
    s->arrays = lent_count;
    for (int k = 0; k < lent_count; k++) {
        check(name, block_as_noted(&lent_blocks[k]), "an array is not as expected");
        s->nulls |= (uint64_t)block_is_null(&lent_blocks[k], place) << k;
    }
    lent_count = 0;
}

static inline void same(const char *name, const char *what, uint64_t got, uint64_t wanted)
{
    checks++;
    if (got != wanted) {
        failures++;
        printf("%s: %s is %llu, expected %llu\n", name, what, (unsigned long long)got, (unsigned long long)wanted);
    }
}

#define EVERY_PLACE for (place = 0; place < PLACES; place++)

/* ---- rows */

static inline void saw(const char *name, uint8_t refused)
{
    seen_of(name)->of[refused]++;
}

/* An entry was expected to answer with each of its rows, and without refusal, and with no other row. */
static inline void rows(const char *name, const char *of)
{
    int wanted[ROWS] = {1};
    for (const char *at = of; *at != 0; at += strspn(at, " "))
        wanted[strtol(at, (char **)&at, 10)] = 1;
    for (struct seen *s = all_seen; s->name != NULL; s++)
        if (strcmp(s->name, name) == 0)
            for (int row = 0; row < ROWS; row++)
                if ((s->of[row] > 0) != wanted[row]) {
                    failures++;
                    printf("%s: row %d was expected %ld times\n", name, row, s->of[row]);
                }
}

/* Each array of each entry was passed as a null pointer with the number 0. */
static inline void all_nulls(void)
{
    int arrays = 0;
    for (struct seen *s = all_seen; s->name != NULL; s++) {
        nulls_were_passed(s->name, s->arrays, s->nulls);
        arrays += s->arrays;
    }
    tell_nulls(arrays);
}

/* ---- by chance */

static inline size_t some_length(void)
{
    return once_in(40) ? 1021 + chance() % 6 : chance() % 7;
}

/* The same length, now and then not. */
static inline size_t about(size_t n)
{
    return once_in(25) ? n + 1 : once_in(25) && n > 0 ? n - 1 : n;
}

/* Room for so many, now and then too little. */
static inline size_t some_room(size_t needed)
{
    return once_in(20) && needed > 0 ? needed - 1 : once_in(3) ? needed + chance() % 4 : needed;
}

static inline uint8_t some_choice(void)
{
    return once_in(25) ? (uint8_t)(3 + chance() % 253) : (uint8_t)(chance() % 3);
}

/* A ceiling, most often from 3 to 93. */
static inline uint8_t some_ceiling(void)
{
    static const uint8_t limits[] = {0, 1, 2, 3, 60, 92, 93, 93, 93, 94, 255};
    return once_in(8) ? limits[chance() % sizeof limits] : (uint8_t)(GEDRASHIW_MIN_CEILING + chance() % 91);
}

/* A limit of positions, most often 1,024, else near some strand's length. */
static inline uint16_t some_limit(size_t n)
{
    static const uint16_t limits[] = {0, 1, 2, 255, 256, 257, 1021, 1022, 1023, 1024, 1025, 65535};
    if (!once_in(5))
        return GEDRASHIW_MAX_POSITIONS;
    return once_in(2) ? limits[chance() % (sizeof limits / sizeof *limits)] : (uint16_t)(n + chance() % 3 - (n > 0));
}

static inline uint8_t some_answer(void) /* no, yes, or another number that is yes */
{
    return once_in(5) ? (uint8_t)chance() : (uint8_t)(chance() % 2);
}

static inline uint32_t some_of(const uint32_t *numbers, uint32_t count, uint32_t below)
{
    return once_in(4) ? chance() % below : numbers[chance() % count];
}

static inline void some_bases(struct list *l, size_t n)
{
    static const char letters[] = "ACGTACGTACGTCTGANNacgtn*";
    l->n = n;
    for (size_t i = 0; i < n; i++)
        l->v[i] = (uint8_t)letters[chance() % (sizeof letters - 1)];
}

static inline void some_quals(struct list *l, size_t n)
{
    static const uint32_t usual[] = {0, 1, 2, 3, 20, 30, 30, 30, 40, 60, 93, 94, 255};
    l->n = n;
    for (size_t i = 0; i < n; i++)
        l->v[i] = some_of(usual, 13, 256);
}

static inline void some_counts(struct list *l, size_t n)
{
    static const uint32_t usual[] = {0, 0, 1, 1, 2, 3, 5, 20000, 32767, 32768, 40000, 65535};
    l->n = n;
    for (size_t i = 0; i < n; i++)
        l->v[i] = some_of(usual, 12, 65536);
}

static inline void some_totals(struct list *l, size_t n)
{
    static const uint32_t usual[] = {0, 0, 1, 2, 3, 4, 32767, 32768, 4294967295u, 4294967294u};
    l->n = n;
    for (size_t i = 0; i < n; i++)
        l->v[i] = some_of(usual, 10, 1 << 20);
}

static inline void some_marks(struct list *l, size_t n)
{
    static const uint32_t usual[] = {0, 0, 1, 1, 1, 2, 255};
    l->n = n;
    for (size_t i = 0; i < n; i++)
        l->v[i] = some_of(usual, 7, 256);
}

#endif
