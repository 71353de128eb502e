/* Documents 01 and 02 a second time, short and slow, over the bytes that the entry points take: what a call answers and what it writes.
 * The tests of the C interface and the fuzzers hold the library to it. */
#ifndef REFERENCE_H
#define REFERENCE_H

#include "gedrashiw.h"

#include <string.h>

enum { MOST_POSITIONS = 1024, MOST_SHOWN = 256, MOST_READS = 1024, CAP = 32767, LOWEST_CEILING = 3, HIGHEST_CEILING = 93 };

struct array {
    const uint8_t *at;
    size_t len; /* in bytes */
};

static inline uint32_t number_at(const uint8_t *at, int bytes)
{
    uint32_t n = 0;
    for (int i = bytes - 1; i >= 0; i--)
        n = n << 8 | at[i];
    return n;
}

static inline void put_number(uint8_t *at, uint32_t n, int bytes)
{
    for (int i = 0; i < bytes; i++)
        at[i] = (uint8_t)(n >> 8 * i);
}

/* Number i of an array of 16-bit numbers, capped as every metric has it, 0 past its end. */
static inline uint32_t capped_at(struct array a, size_t i)
{
    uint32_t n = i < a.len / 2 ? number_at(a.at + 2 * i, 2) : 0;
    return n > CAP ? CAP : n;
}

/* ---- the metrics */

enum { A_DEPTHS, A_ERRORS, B_DEPTHS, B_ERRORS, RECORD_BASES, RECORD_ERRORS, METRICS_INPUTS };

struct metrics_given {
    struct array in[METRICS_INPUTS];
    uint8_t second;
    size_t room; /* of the output */
};

struct metrics_wanted {
    uint8_t refused;
    uint32_t words[GEDRASHIW_METRICS_BYTES / 4];
};

/* The bits of e / d, each first the nearest binary32: what a C compiler makes of it. */
static inline uint32_t rate(uint64_t e, uint64_t d)
{
    float r = d == 0 ? 0.0f : (float)e / (float)d;
    uint32_t bits;
    memcpy(&bits, &r, 4);
    return bits;
}

/* D, M and E over n positions of one strand's depths and another's, and over some errors. */
static inline void figures(struct array one, struct array two, size_t n, struct array wrong, uint32_t *words)
{
    uint32_t largest = 0, smallest = 0;
    uint64_t depths = 0, errors = 0;
    for (size_t i = 0; i < n; i++) {
        uint32_t d = capped_at(one, i) + capped_at(two, i);
        largest = d > largest ? d : largest;
        smallest = i == 0 || d < smallest ? d : smallest;
        depths += d;
    }
    for (size_t i = 0; i < wrong.len / 2; i++)
        errors += capped_at(wrong, i);
    words[0] = largest;
    words[1] = smallest;
    words[2] = rate(errors, depths);
}

static inline uint8_t metrics_refused(const struct metrics_given *g)
{
    int odd = 0, too_long = 0, ragged;
    size_t positions[METRICS_INPUTS];
    for (int k = 0; k < METRICS_INPUTS; k++) {
        size_t len = !g->second && (k == B_DEPTHS || k == B_ERRORS) ? 0 : g->in[k].len;
        positions[k] = k == RECORD_BASES ? len : len / 2;
        odd |= k != RECORD_BASES && len % 2 != 0;
        too_long |= positions[k] > MOST_POSITIONS;
    }
    ragged = positions[A_DEPTHS] != positions[A_ERRORS] || positions[B_DEPTHS] != positions[B_ERRORS] ||
             positions[RECORD_BASES] != positions[RECORD_ERRORS];
    return odd ? 13 : too_long ? 7 : ragged ? 8 : g->room < GEDRASHIW_METRICS_BYTES ? 12 : 0;
}

static inline struct metrics_wanted metrics_expected(const struct metrics_given *g)
{
    struct metrics_wanted w = {metrics_refused(g), {0}};
    if (w.refused != 0)
        return w;
    struct array none = {NULL, 0};
    struct array first = g->in[A_DEPTHS], second = g->second ? g->in[B_DEPTHS] : none, bases = g->in[RECORD_BASES];
    figures(first, none, first.len / 2, g->in[A_ERRORS], w.words);
    figures(second, none, second.len / 2, g->second ? g->in[B_ERRORS] : none, w.words + 3);
    figures(first, second, bases.len, g->in[RECORD_ERRORS], w.words + 6);
    for (size_t i = 0; i < bases.len; i++)
        w.words[9] += bases.at[i] == 'N' && capped_at(first, i) + capped_at(second, i) > 0;
    return w;
}

static inline uint8_t metrics_call(const struct metrics_given *g, uint8_t *out)
{
    const struct array *in = g->in;
    return gedrashiw_metrics(in[A_DEPTHS].at, in[A_DEPTHS].len, in[A_ERRORS].at, in[A_ERRORS].len, g->second, in[B_DEPTHS].at,
                             in[B_DEPTHS].len, in[B_ERRORS].at, in[B_ERRORS].len, in[RECORD_BASES].at, in[RECORD_BASES].len,
                             in[RECORD_ERRORS].at, in[RECORD_ERRORS].len, out, g->room);
}

/* ---- the combination */

/* A strand's arrays, and the bytes of a position. */
enum { BASES, QUALS, DEPTHS, ERRORS, EVIDENCE, ARRAYS };
static const size_t width[ARRAYS] = {1, 1, 2, 2, 9};

/* The outputs. The evidence of a strand alone goes to the first one's. */
enum { BASES_OUT, QUALS_OUT, ERRORS_OUT, A_EVIDENCE_OUT, B_EVIDENCE_OUT, OUTPUTS };
static const size_t out_width[OUTPUTS] = {1, 1, 2, 9, 9};

enum {
    NO_RECORD = GEDRASHIW_NO_RECORD,
    A_ALONE = GEDRASHIW_A_ALONE,
    B_ALONE = GEDRASHIW_B_ALONE,
    BOTH = GEDRASHIW_BOTH_STRANDS
};
enum { NO_CALL = -1, C_TO_T, G_TO_A };
enum { READ_TAG = 0x30 };

struct strand {
    uint8_t present, annotated, pattern;
    struct array of[ARRAYS];
};

/* The two entries, which take the same. */
enum { BATCH, PREVIEW, PRODUCTS };

struct duplex_given {
    int product;
    struct strand strand[2];
    uint8_t listed, ceiling;
    uint16_t limit;
    struct array reads;
    size_t room[OUTPUTS];
};

struct duplex_wanted {
    uint8_t refused, kind;
    size_t positions;
    size_t written[OUTPUTS]; /* bytes */
    uint8_t out[OUTPUTS][9 * MOST_POSITIONS];
};

/* The arrays in the order of the call: A's, B's, the reads. */
enum { DUPLEX_INPUTS = 2 * ARRAYS + 1 };

static inline struct array *duplex_input(struct duplex_given *g, int k)
{
    return k < 2 * ARRAYS ? &g->strand[k / ARRAYS].of[k % ARRAYS] : &g->reads;
}

static inline int looked_at(const struct strand *s, int k)
{
    return s->present && (k != EVIDENCE || s->annotated);
}

struct read {
    uint32_t flags;
    struct array bases;
};

/* The read that begins at a place of a run. Answers where the next begins, or 0 where none does. */
static inline size_t read_at(struct array run, size_t at, struct read *r)
{
    if (run.len - at < 3 || run.at[at] != READ_TAG)
        return 0;
    size_t len = number_at(run.at + at + 1, 2);
    if (len < 2 || run.len - at - 3 < len)
        return 0;
    r->flags = number_at(run.at + at + 3, 2);
    r->bases.at = run.at + at + 5;
    r->bases.len = len - 2;
    return at + 3 + len;
}

/* How many reads a run has; -1 where it is broken. */
static inline long reads_in(struct array run)
{
    long count = 0;
    struct read r;
    for (size_t at = 0; at < run.len; count++)
        if ((at = read_at(run, at, &r)) == 0)
            return -1;
    return count;
}

/* Row 13. */
static inline int duplex_broken(const struct duplex_given *g)
{
    for (const struct strand *s = g->strand; s < g->strand + 2; s++) {
        if (s->present && s->annotated && s->pattern > 1)
            return 1;
        for (int k = 0; k < ARRAYS; k++)
            if (looked_at(s, k) && s->of[k].len % width[k] != 0)
                return 1;
    }
    return g->listed && reads_in(g->reads) < 0;
}

/* Row 14: request 102 of document 02. */
static inline int ceiling_outside(uint8_t ceiling)
{
    return ceiling < LOWEST_CEILING || ceiling > HIGHEST_CEILING;
}

/* A sum of qualities, or a difference, held to 2 and a ceiling. */
static inline int held(int qual, uint8_t ceiling)
{
    return qual < 2 ? 2 : qual > ceiling ? ceiling : qual;
}

/* The most positions that an array has of those that are looked at. */
static inline size_t longest_array(const struct duplex_given *g)
{
    size_t longest = 0;
    for (const struct strand *s = g->strand; s < g->strand + 2; s++)
        for (int k = 0; k < ARRAYS; k++)
            if (looked_at(s, k) && s->of[k].len / width[k] > longest)
                longest = s->of[k].len / width[k];
    return longest;
}

/* The limit that counts: a preview's is at most 256 (request 106 of document 02). */
static inline size_t limit_of(const struct duplex_given *g)
{
    return g->product == PREVIEW && g->limit > MOST_SHOWN ? MOST_SHOWN : g->limit;
}

/* Rows 13, 14, 7, 19, 8 and 9, over all that is given. */
static inline uint8_t inputs_refused(const struct duplex_given *g)
{
    int ragged = 0;
    for (const struct strand *s = g->strand; s < g->strand + 2; s++)
        for (int k = 0; k < ARRAYS; k++)
            ragged |= looked_at(s, k) && s->of[k].len / width[k] != s->of[BASES].len;
    if (duplex_broken(g))
        return 13;
    if (ceiling_outside(g->ceiling))
        return 14;
    if (longest_array(g) > MOST_POSITIONS)
        return 7;
    if (longest_array(g) > limit_of(g))
        return 19;
    return ragged ? 8 : g->listed && reads_in(g->reads) > MOST_READS ? 9 : 0;
}

/* The same for the preview's entry, with outputs of no more than 256 places, which is all that it ever needs. */
static inline struct duplex_given previewed(const struct duplex_given *g)
{
    struct duplex_given shown = *g;
    shown.product = PREVIEW;
    for (int k = 0; k < OUTPUTS; k++)
        if (shown.room[k] > MOST_SHOWN * out_width[k])
            shown.room[k] = MOST_SHOWN * out_width[k];
    return shown;
}

static inline int covered(const struct strand *s, size_t positions)
{
    for (size_t i = 0; s->present && i < positions; i++)
        if (capped_at(s->of[DEPTHS], i) > 0)
            return 1;
    return 0;
}

static inline uint8_t upper(uint8_t base)
{
    return base >= 'a' && base <= 'z' ? (uint8_t)(base - 'a' + 'A') : base;
}

static inline const uint8_t *evidence_at(const struct strand *s, size_t i)
{
    return s->of[EVIDENCE].at + 9 * i;
}

/* The pattern of the methylation call at a position of two strands. */
static inline int call_at(const struct strand *s, size_t i)
{
    if (!s[0].annotated || !s[1].annotated || s[0].pattern == s[1].pattern)
        return NO_CALL;
    uint8_t ct = upper(s[s[0].pattern == C_TO_T ? 0 : 1].of[BASES].at[i]);
    uint8_t ga = upper(s[s[0].pattern == C_TO_T ? 1 : 0].of[BASES].at[i]);
    if (ga == 'C' && (ct == 'C' || ct == 'T'))
        return C_TO_T;
    return ct == 'G' && (ga == 'G' || ga == 'A') ? G_TO_A : NO_CALL;
}

/* A position of two strands before it is masked. `own` is what a read of the call's pattern should show there. */
struct position {
    int call;
    uint8_t base, own;
    int qual;
};

static inline struct position position_at(const struct strand *s, size_t i, uint8_t ceiling)
{
    uint8_t a = s[0].of[BASES].at[i], b = s[1].of[BASES].at[i];
    int aq = s[0].of[QUALS].at[i], bq = s[1].of[QUALS].at[i];
    struct position p = {call_at(s, i), a, a, 2};
    if (p.call != NO_CALL) {
        int informative = s[0].pattern == p.call ? 0 : 1;
        p.base = (uint8_t) "CG"[p.call];
        p.own = informative == 0 ? a : b;
        int converted = upper(p.own) == "TA"[p.call];
        int alone = converted && evidence_at(&s[informative], i)[0] == 0;
        p.qual = !alone ? aq + bq : informative == 0 ? bq : aq;
    } else if (a == b) {
        p.qual = aq + bq;
    } else if (aq != bq) {
        p.base = aq > bq ? a : b;
        p.qual = aq > bq ? aq - bq : bq - aq;
    }
    p.qual = held(p.qual, ceiling);
    return p;
}

static inline long errors_of_reads(struct array run, size_t i, const struct position *p)
{
    long count = 0;
    struct read r = {0};
    for (size_t at = 0; at < run.len;) {
        at = read_at(run, at, &r);
        int pattern = r.flags & 0x80 ? G_TO_A : C_TO_T;
        uint8_t expected = p->call == pattern ? p->own : p->base;
        count += i < r.bases.len && r.bases.at[i] != 'N' && expected != 'N' && r.bases.at[i] != expected;
    }
    return count;
}

/* Without a list: the strands' errors, or the winner's and what the loser has that is no error. */
static inline long errors_estimated(const struct strand *s, size_t i, const struct position *p)
{
    long depth[2], wrong[2];
    for (int k = 0; k < 2; k++) {
        depth[k] = number_at(s[k].of[DEPTHS].at + 2 * i, 2);
        wrong[k] = number_at(s[k].of[ERRORS].at + 2 * i, 2);
    }
    if (p->call != NO_CALL || s[0].of[BASES].at[i] == s[1].of[BASES].at[i])
        return wrong[0] + wrong[1];
    int winner = s[0].of[QUALS].at[i] >= s[1].of[QUALS].at[i] ? 0 : 1;
    return wrong[winner] + depth[1 - winner] - wrong[1 - winner];
}

/* A position of evidence: marked, with its counts, or clear. */
static inline void put_evidence(uint8_t *at, int kept, const uint8_t *evidence)
{
    memset(at, 0, 9);
    if (kept) {
        at[0] = 1;
        memcpy(at + 1, evidence + 1, 8);
    }
}

static inline void write_both(const struct duplex_given *g, struct duplex_wanted *w)
{
    const struct strand *s = g->strand;
    for (size_t i = 0; i < w->positions; i++) {
        struct position p = position_at(s, i, g->ceiling);
        int masked = s[0].of[BASES].at[i] == 'N' || s[1].of[BASES].at[i] == 'N' || p.qual == 2;
        long e = g->listed ? errors_of_reads(g->reads, i, &p) : errors_estimated(s, i, &p);
        w->out[BASES_OUT][i] = masked ? 'N' : p.base;
        w->out[QUALS_OUT][i] = masked ? 2 : (uint8_t)p.qual;
        put_number(w->out[ERRORS_OUT] + 2 * i, (uint32_t)(e < 0 ? 0 : e > CAP ? CAP : e), 2);
        for (int k = 0; k < 2; k++)
            if (s[k].annotated)
                put_evidence(w->out[A_EVIDENCE_OUT + k] + 9 * i, p.call == s[k].pattern, evidence_at(&s[k], i));
    }
}

static inline void write_alone(const struct strand *s, struct duplex_wanted *w)
{
    memcpy(w->out[BASES_OUT], s->of[BASES].at, s->of[BASES].len);
    memcpy(w->out[QUALS_OUT], s->of[QUALS].at, s->of[QUALS].len);
    memcpy(w->out[ERRORS_OUT], s->of[ERRORS].at, s->of[ERRORS].len);
    for (size_t i = 0; s->annotated && i < w->positions; i++)
        put_evidence(w->out[A_EVIDENCE_OUT] + 9 * i, evidence_at(s, i)[0] != 0, evidence_at(s, i));
}

/* The kind of the record of two strands that are not refused, and how many positions it has. */
static inline uint8_t kind_of(const struct strand *s, size_t *positions)
{
    const struct strand *a = &s[0], *b = &s[1];
    size_t a_len = a->of[BASES].len, b_len = b->of[BASES].len;
    size_t shorter = !b->present || (a->present && a_len < b_len) ? a_len : b_len;
    int a_counts = covered(a, shorter), b_counts = covered(b, shorter);
    uint8_t kind = a_counts && b_counts ? BOTH : a_counts ? A_ALONE : b_counts ? B_ALONE : NO_RECORD;
    *positions = kind == NO_RECORD ? 0 : kind == BOTH ? shorter : kind == A_ALONE ? a_len : b_len;
    return kind;
}

static inline void duplex_expected(const struct duplex_given *g, struct duplex_wanted *w)
{
    const struct strand *a = &g->strand[0], *b = &g->strand[1];
    memset(w, 0, sizeof *w);
    w->refused = inputs_refused(g);
    if (w->refused != 0)
        return;
    w->kind = kind_of(g->strand, &w->positions);
    int first_annotated = w->kind == B_ALONE ? b->annotated : a->annotated;
    for (int k = 0; w->kind != NO_RECORD && k < OUTPUTS; k++) {
        int goes = k == A_EVIDENCE_OUT ? first_annotated : k == B_EVIDENCE_OUT ? w->kind == BOTH && b->annotated : 1;
        w->written[k] = goes ? w->positions * out_width[k] : 0;
        if (g->room[k] < w->written[k])
            w->refused = 12;
    }
    if (w->refused != 0) {
        memset(w, 0, sizeof *w);
        w->refused = 12;
    } else if (w->kind == BOTH) {
        write_both(g, w);
    } else if (w->kind != NO_RECORD) {
        write_alone(w->kind == A_ALONE ? a : b, w);
    }
}

static inline struct gedrashiw_duplex_record duplex_call(const struct duplex_given *g, uint8_t *const *out)
{
    const struct strand *a = &g->strand[0], *b = &g->strand[1];
    struct gedrashiw_told_encoded_molecule molecule = {
        {a->present, a->annotated, a->pattern}, {b->present, b->annotated, b->pattern}, g->listed, {g->ceiling, g->limit}};
    return (g->product == PREVIEW ? gedrashiw_preview_consensus : gedrashiw_duplex_consensus)(
        molecule, a->of[BASES].at, a->of[BASES].len, a->of[QUALS].at, a->of[QUALS].len, a->of[DEPTHS].at, a->of[DEPTHS].len,
        a->of[ERRORS].at, a->of[ERRORS].len, a->of[EVIDENCE].at, a->of[EVIDENCE].len, b->of[BASES].at, b->of[BASES].len,
        b->of[QUALS].at, b->of[QUALS].len, b->of[DEPTHS].at, b->of[DEPTHS].len, b->of[ERRORS].at, b->of[ERRORS].len,
        b->of[EVIDENCE].at, b->of[EVIDENCE].len, g->reads.at, g->reads.len, out[BASES_OUT], g->room[BASES_OUT], out[QUALS_OUT],
        g->room[QUALS_OUT], out[ERRORS_OUT], g->room[ERRORS_OUT], out[A_EVIDENCE_OUT], g->room[A_EVIDENCE_OUT],
        out[B_EVIDENCE_OUT], g->room[B_EVIDENCE_OUT]);
}

/* ---- why a position shows N: request 101 of document 02, from its words; of the combination above only the call is asked */

static inline uint8_t why_of_two(const struct strand *s, size_t i)
{
    uint8_t a = s[0].of[BASES].at[i], b = s[1].of[BASES].at[i];
    int aq = s[0].of[QUALS].at[i], bq = s[1].of[QUALS].at[i], call = call_at(s, i);
    if (a == 'N' || b == 'N')
        return a != 'N' ? GEDRASHIW_REASON_B_NO_CALL : b != 'N' ? GEDRASHIW_REASON_A_NO_CALL : GEDRASHIW_REASON_BOTH_NO_CALL;
    if (call == NO_CALL && a != b) {
        int apart = aq > bq ? aq - bq : bq - aq;
        return apart == 0 ? GEDRASHIW_REASON_EQUAL_QUALITIES : apart <= 2 ? GEDRASHIW_REASON_CLOSE_QUALITIES : GEDRASHIW_REASON_CALLED;
    }
    for (int k = 0; k < 2; k++) {
        int informative = call != NO_CALL && s[k].pattern == call;
        if (informative && upper(k == 0 ? a : b) == "TA"[call] && evidence_at(&s[k], i)[0] == 0)
            return (k == 0 ? bq : aq) <= 2 ? GEDRASHIW_REASON_LOW_CONFIRMING : GEDRASHIW_REASON_CALLED;
    }
    return aq + bq <= 2 ? GEDRASHIW_REASON_LOW_SUM : GEDRASHIW_REASON_CALLED;
}

/* Reads play no part, broken or not, nor do outputs, nor a ceiling or a limit. */
static inline struct gedrashiw_reason reason_expected(const struct duplex_given *g, size_t position)
{
    struct duplex_given strands = *g;
    strands.listed = 0;
    strands.ceiling = HIGHEST_CEILING;
    strands.product = BATCH;
    strands.limit = MOST_POSITIONS;
    struct gedrashiw_reason r = {inputs_refused(&strands), GEDRASHIW_REASON_REFUSED};
    size_t positions;
    if (r.refused != 0)
        return r;
    uint8_t kind = kind_of(g->strand, &positions);
    r.reason = position >= positions ? GEDRASHIW_REASON_OUTSIDE
               : kind != BOTH        ? GEDRASHIW_REASON_SINGLE_STRAND
                                     : why_of_two(g->strand, position);
    return r;
}

static inline struct gedrashiw_reason reason_call(const struct duplex_given *g, size_t position)
{
    const struct strand *a = &g->strand[0], *b = &g->strand[1];
    return gedrashiw_no_call_reason(
        a->present, a->annotated, a->pattern, a->of[BASES].at, a->of[BASES].len, a->of[QUALS].at, a->of[QUALS].len,
        a->of[DEPTHS].at, a->of[DEPTHS].len, a->of[ERRORS].at, a->of[ERRORS].len, a->of[EVIDENCE].at, a->of[EVIDENCE].len,
        b->present, b->annotated, b->pattern, b->of[BASES].at, b->of[BASES].len, b->of[QUALS].at, b->of[QUALS].len,
        b->of[DEPTHS].at, b->of[DEPTHS].len, b->of[ERRORS].at, b->of[ERRORS].len, b->of[EVIDENCE].at, b->of[EVIDENCE].len,
        position);
}

/* Position number k of those that are asked about in a case: the first ones, both sides of each strand's end and of the longest, and the
 * last machine words. There are so many. */
enum { FIRST_ASKED = 24, ASKED = FIRST_ASKED + 8 };

static inline size_t asked_position(const struct duplex_given *g, int k)
{
    size_t a = g->strand[0].of[BASES].len, b = g->strand[1].of[BASES].len;
    const size_t others[ASKED - FIRST_ASKED] = {a - 1, a, b - 1, b, MOST_POSITIONS - 1, MOST_POSITIONS, SIZE_MAX - 1, SIZE_MAX};
    return k < FIRST_ASKED ? (size_t)k : others[k - FIRST_ASKED];
}

/* The metrics of a record that was made of g: of its own strands, cut to its length where there are two. */
static inline struct metrics_given metrics_of(const struct duplex_given *g, uint8_t kind, size_t positions,
                                              const uint8_t *bases, const uint8_t *errors)
{
    const struct strand *first = &g->strand[kind == B_ALONE ? 1 : 0], *second = &g->strand[1];
    struct metrics_given m = {{{first->of[DEPTHS].at, 2 * positions}, {first->of[ERRORS].at, 2 * positions},
                               {second->of[DEPTHS].at, 2 * positions}, {second->of[ERRORS].at, 2 * positions},
                               {bases, positions}, {errors, 2 * positions}}, kind == BOTH, GEDRASHIW_METRICS_BYTES};
    return m;
}

#endif
