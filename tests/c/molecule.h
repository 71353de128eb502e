/* An encoded molecule (document 01's tray) split into the arguments of the combination's entry, and a record as duplexline's
 * line. */
#ifndef MOLECULE_H
#define MOLECULE_H

#include "reference.h"

#include <inttypes.h>
#include <stdarg.h>
#include <stdio.h>

enum { MOST_BYTES = 65536, THRESHOLDS = 0x01, STRAND_A = 0x10, STRAND_B = 0x20, LIST = 0x2f };

#define HEADER "kind gate bases quals errors aD aM aE bD bM bE cD cM cE nc\n"

struct molecule {
    struct array thresholds;
    struct duplex_given given;
};

/* Whether a strand's fields, which may be missing, are a strand's: all of the first four, or none, and then no annotation. */
static inline int takes_strand(struct strand *s, const struct array *field)
{
    static const uint8_t nothing[1];
    int count = 0;
    for (int k = BASES; k < EVIDENCE; k++)
        count += field[k].at != NULL;
    s->present = count == EVIDENCE;
    s->annotated = field[EVIDENCE].at != NULL;
    for (int k = 0; k < ARRAYS; k++) {
        s->of[k].at = field[k].at == NULL ? nothing : field[k].at;
        s->of[k].len = field[k].len;
    }
    if (!s->annotated)
        return count == 0 || count == EVIDENCE;
    /* The pattern stands before the evidence. */
    if (count != EVIDENCE || field[EVIDENCE].len == 0)
        return 0;
    s->pattern = field[EVIDENCE].at[0];
    s->of[EVIDENCE].at++;
    s->of[EVIDENCE].len--;
    for (size_t i = 0; i < s->of[EVIDENCE].len; i += 9)
        if (s->of[EVIDENCE].at[i] > 1)
            return 0;
    return 1;
}

static inline int known_tag(uint8_t tag)
{
    return tag == THRESHOLDS || (tag >= STRAND_A && tag < STRAND_A + ARRAYS) || (tag >= STRAND_B && tag < STRAND_B + ARRAYS) ||
           tag == LIST;
}

/* Splits some bytes; what follows the field 2F is the run of reads. Answers 0 where the bytes are refused by 13 for what the
 * entry does not see: it sees byte counts of a strand's arrays, patterns and a broken run (`duplex_broken`). Outputs have 1,024
 * places. */
static inline int split_molecule(const uint8_t *bytes, size_t len, struct molecule *m)
{
    struct array field[LIST + 1];
    memset(field, 0, sizeof field);
    memset(m, 0, sizeof *m);
    m->given.reads.at = bytes;
    m->given.ceiling = HIGHEST_CEILING;
    m->given.limit = MOST_POSITIONS;
    for (int k = 0; k < OUTPUTS; k++)
        m->given.room[k] = MOST_POSITIONS * out_width[k];
    int last = 0;
    size_t at = 0;
    while (at < len && last != LIST) {
        if (len - at < 3 || !known_tag(bytes[at]) || bytes[at] <= last)
            return 0;
        last = bytes[at];
        field[last].at = bytes + at + 3;
        field[last].len = number_at(bytes + at + 1, 2);
        if (len - at - 3 < field[last].len)
            return 0;
        at += 3 + field[last].len;
    }
    m->thresholds = field[THRESHOLDS];
    if (last == LIST) {
        m->given.listed = 1;
        m->given.reads.at = bytes + at;
        m->given.reads.len = len - at;
    }
    return len <= MOST_BYTES && m->thresholds.len % 4 == 0 && field[LIST].len == 0 &&
           takes_strand(&m->given.strand[0], field + STRAND_A) && takes_strand(&m->given.strand[1], field + STRAND_B);
}

/* ---- text */

struct text {
    char at[32768];
    size_t len;
};

static inline void say(struct text *t, const char *form, ...)
{
    va_list words;
    va_start(words, form);
    t->len += (size_t)vsnprintf(t->at + t->len, sizeof t->at - t->len, form, words);
    va_end(words);
}

/* The second line of duplexline's text: of a record's arrays and its metrics. */
static inline void say_record(struct text *t, uint8_t kind, const char *gate, size_t positions, const uint8_t *bases,
                              const uint8_t *quals, const uint8_t *errors, const uint32_t *words)
{
    static const char *const kinds[] = {"none", "ab", "ba", "both"};
    say(t, "%s %s ", kinds[kind], gate);
    for (size_t i = 0; i < positions; i++)
        say(t, "%c", bases[i] >= 0x21 && bases[i] <= 0x7e ? bases[i] : '?');
    for (size_t i = 0; i < positions; i++)
        say(t, "%c%u", i == 0 ? ' ' : ',', quals[i]);
    for (size_t i = 0; i < positions; i++)
        say(t, "%c%" PRIu32, i == 0 ? ' ' : ',', number_at(errors + 2 * i, 2));
    for (int k = 0; k < 9; k += 3)
        say(t, " %" PRIu32 " %" PRIu32 " %08" PRIx32, words[k], words[k + 1], words[k + 2]);
    say(t, " %" PRIu32 "\n", words[9]);
}

#endif
