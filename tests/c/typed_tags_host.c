/* Calls the typed entries over evidence, annotation and methylation tags as a C program does, and the entry for tags over bytes, on cases
 * by chance and at the limits. What is expected is worked out here, from document 01. Arrays lie as lists.h has them. */
#define _DEFAULT_SOURCE
#include "lists.h"

enum { CAP = 32767, MOST_POSITIONS = 1024, MOST_READS = 1024, MARKS = 0, UNCONVERTED, CONVERTED, EVIDENCE };

/* The evidence of a strand: marks, unconverted, converted. */
struct strand {
    uint8_t annotation;
    struct list of[EVIDENCE];
};

static struct strand strands[2];

#define EVIDENCE_IN(s) IN8((s).of[MARKS]), IN32((s).of[UNCONVERTED]), IN32((s).of[CONVERTED])
#define EVIDENCE_OUT OUT8(0, room[0]), OUT32(1, room[1]), OUT32(2, room[2])

static void some_evidence(struct strand *s, size_t n)
{
    s->annotation = some_choice();
    some_marks(&s->of[MARKS], about(n));
    some_totals(&s->of[UNCONVERTED], about(n));
    some_totals(&s->of[CONVERTED], about(n));
}

/* Rows 7 and 8 of evidence beside so many positions. */
static int too_long(const struct strand *s)
{
    return s->of[MARKS].n > MOST_POSITIONS || s->of[UNCONVERTED].n > MOST_POSITIONS || s->of[CONVERTED].n > MOST_POSITIONS;
}

static int ragged(const struct strand *s, size_t n)
{
    return s->of[MARKS].n != n || s->of[UNCONVERTED].n != n || s->of[CONVERTED].n != n;
}

static uint32_t upper(uint32_t base)
{
    return base >= 'a' && base <= 'z' ? base - 32 : base;
}

static uint32_t held(uint64_t count)
{
    return count > CAP ? CAP : (uint32_t)count;
}

static uint32_t at(const struct list *l, size_t i)
{
    return i < l->n ? l->v[i] : 0;
}

static void count_is(const char *name, struct gedrashiw_count r, uint8_t refused, size_t count)
{
    saw(name, refused);
    same(name, "refused", r.refused, refused);
    same(name, "count", r.count, refused ? 0 : count);
    settle(name);
}

/* ---- evidence */

static size_t room[MOST_OUTPUTS];

static void try_gate(void)
{
    static struct list gated[EVIDENCE];
    struct strand *s = &strands[0];
    some_evidence(s, some_length());
    size_t n = s->of[MARKS].n;
    uint8_t refused = too_long(s) ? 7 : ragged(s, n) ? 8 : 0;
    for (int k = 0; k < EVIDENCE; k++) {
        gated[k].n = n;
        for (size_t i = 0; i < n; i++)
            gated[k].v[i] = s->of[MARKS].v[i] == 0 ? 0 : k == MARKS ? 1 : s->of[k].v[i];
    }
    EVERY_PLACE {
        struct gedrashiw_count r = gedrashiw_gate_to_informative(INOUT8(0, s->of[MARKS]), INOUT32(1, s->of[UNCONVERTED]),
                                                                 INOUT32(2, s->of[CONVERTED]));
        for (int k = 0; refused == 0 && k < EVIDENCE; k++)
            expect(k, k == MARKS ? 1 : 4, &gated[k]);
        count_is("gate_to_informative", r, refused, n);
    }
}

static void try_truncate(void)
{
    static struct list cut[EVIDENCE];
    struct strand *s = &strands[0];
    some_evidence(s, some_length());
    size_t n = s->of[MARKS].n, len = once_in(10) ? SIZE_MAX - chance() % 2 : once_in(4) ? n : chance() % 8, kept = len < n ? len : n;
    uint8_t refused = too_long(s) ? 7 : ragged(s, n) ? 8 : 0;
    for (int k = 0; k < EVIDENCE; k++) {
        room[k] = some_room(kept);
        cut[k].n = kept;
        for (size_t i = 0; i < kept; i++)
            cut[k].v[i] = k == MARKS ? s->of[k].v[i] != 0 : s->of[k].v[i];
    }
    if (refused == 0 && (room[0] < kept || room[1] < kept || room[2] < kept))
        refused = 12;
    EVERY_PLACE {
        struct gedrashiw_count r = gedrashiw_truncate(EVIDENCE_IN(*s), len, EVIDENCE_OUT);
        for (int k = 0; refused == 0 && k < EVIDENCE; k++)
            expect(k, k == MARKS ? 1 : 4, &cut[k]);
        count_is("truncate", r, refused, kept);
    }
}

static void try_counts(void)
{
    static struct list a, b, counts, sums;
    size_t positions = some_length();
    some_totals(&a, some_length());
    some_totals(&b, some_length());
    counts.n = a.n;
    for (size_t i = 0; i < a.n; i++)
        counts.v[i] = held(a.v[i]);
    sums.n = positions;
    for (size_t i = 0; i < positions; i++)
        sums.v[i] = held((uint64_t)at(&a, i) + at(&b, i));
    room[0] = some_room(a.n);
    room[1] = some_room(positions);
    uint8_t refused = a.n > MOST_POSITIONS ? 7 : room[0] < a.n ? 12 : 0;
    int long_one = positions > MOST_POSITIONS || a.n > MOST_POSITIONS || b.n > MOST_POSITIONS;
    uint8_t sum_refused = long_one ? 7 : room[1] < positions ? 12 : 0;
    EVERY_PLACE {
        struct gedrashiw_count r = gedrashiw_unconverted_counts(IN32(a), OUT16(0, room[0]));
        if (refused == 0)
            expect(0, 2, &counts);
        count_is("unconverted_counts", r, refused, a.n);
        r = gedrashiw_converted_counts(IN32(a), OUT16(0, room[0]));
        if (refused == 0)
            expect(0, 2, &counts);
        count_is("converted_counts", r, refused, a.n);
        r = gedrashiw_summed_counts(positions, IN32(a), IN32(b), OUT16(0, room[1]));
        if (sum_refused == 0)
            expect(0, 2, &sums);
        count_is("summed_counts", r, sum_refused, positions);
    }
}

/* ---- the annotation from source reads */

static struct gedrashiw_source_read reads[MOST_NUMBERS];

static void try_simplex(void)
{
    static struct list bytes, reference, aligned, made[EVIDENCE];
    size_t n = some_length(), count = some_length();
    uint8_t pattern = some_choice(), all = some_answer();
    some_bases(&bytes, chance() % 50);
    some_bases(&reference, chance() % 9);
    if (reference.n > 0 && once_in(3))
        reference.v[chance() % reference.n] = 0;
    some_marks(&aligned, about(bytes.n));
    int leaves = 0;
    for (size_t k = 0; k < count; k++) {
        size_t offset = chance() % (bytes.n + 1), most = bytes.n - offset < 9 ? bytes.n - offset : 9;
        reads[k] = (struct gedrashiw_source_read){(uint16_t)chance(), offset, chance() % (most + 1)};
        if (once_in(300))
            reads[k].offset = once_in(2) ? SIZE_MAX : bytes.n + 1;
        leaves |= reads[k].offset > bytes.n || reads[k].length > bytes.n - reads[k].offset;
    }
    uint8_t refused = pattern == 0 || pattern > 2 ? 13 : n > MOST_POSITIONS ? 7 : count > MOST_READS ? 9 : leaves ? 10 : 0;
    for (int k = 0; k < EVIDENCE; k++) {
        room[k] = some_room(n);
        made[k].n = n;
        memset(made[k].v, 0, sizeof made[k].v);
    }
    for (size_t i = 0; refused == 0 && i < n; i++) {
        uint32_t letter = (uint32_t)"CG"[pattern - 1], other = (uint32_t)"TA"[pattern - 1];
        made[MARKS].v[i] = upper(at(&reference, i)) == letter;
        for (size_t k = 0; k < count; k++) {
            size_t place_of = reads[k].offset + i;
            if (i >= reads[k].length || !(all || (made[MARKS].v[i] && at(&aligned, place_of) != 0)))
                continue;
            made[UNCONVERTED].v[i] += upper(bytes.v[place_of]) == letter;
            made[CONVERTED].v[i] += upper(bytes.v[place_of]) == other;
        }
    }
    if (refused == 0 && (room[0] < n || room[1] < n || room[2] < n))
        refused = 12;
    EVERY_PLACE {
        struct gedrashiw_count r = gedrashiw_annotate_simplex_methylation(
            n, (const struct gedrashiw_source_read *)lent_parts(reads, count * sizeof *reads), count, IN8(bytes), IN8(reference), pattern,
            IN8(aligned), all, EVIDENCE_OUT);
        for (int k = 0; refused == 0 && k < EVIDENCE; k++)
            expect(k, k == MARKS ? 1 : 4, &made[k]);
        count_is("annotate_simplex_methylation", r, refused, n);
    }
}

/* ---- restored sequences, MM and ML */

static void restore(struct list *bases, uint8_t pattern, const struct list *marks)
{
    for (size_t i = 0; i < bases->n; i++)
        if (marks->v[i] != 0 && upper(bases->v[i]) == (uint32_t)"TA"[pattern - 1])
            bases->v[i] = (uint32_t)"CG"[pattern - 1];
}

static void try_restore(void)
{
    static struct list bases, restored;
    struct strand *s = &strands[0];
    some_bases(&bases, some_length());
    some_evidence(s, bases.n);
    int annotated = s->annotation != 0, wrong = s->annotation > 2;
    uint8_t faults = bases.n > MOST_POSITIONS || s->of[MARKS].n > MOST_POSITIONS ? 7 : s->of[MARKS].n != bases.n ? 8 : 0;
    uint8_t refused = wrong || !annotated ? 13 : faults;
    restored = bases;
    if (refused == 0)
        restore(&restored, s->annotation, &s->of[MARKS]);
    EVERY_PLACE {
        struct gedrashiw_count r = gedrashiw_restore_unconverted_bases(INOUT8(0, bases), s->annotation, IN8(s->of[MARKS]));
        expect(0, 1, &restored);
        count_is("restore_unconverted_bases", r, refused, bases.n);
    }
    room[0] = some_room(bases.n);
    refused = wrong ? 13 : annotated ? faults : bases.n > MOST_POSITIONS ? 7 : 0;
    refused = refused ? refused : room[0] < bases.n ? 12 : 0;
    EVERY_PLACE {
        struct gedrashiw_count r = gedrashiw_methylation_strand_bases(IN8(bases), s->annotation, IN8(s->of[MARKS]), OUT8(0, room[0]));
        if (refused == 0)
            expect(0, 1, &restored);
        count_is("methylation_strand_bases", r, refused, bases.n);
    }
}

/* A strand's MM text and ML bytes, both empty where nothing is called. */
struct tags {
    struct list mm, ml;
};

static void add_text(struct list *to, const char *text)
{
    while (*text != 0)
        to->v[to->n++] = (uint8_t)*text++;
}

static void tags_of(const struct list *bases, const struct strand *s, uint8_t pattern, uint8_t mode, struct tags *t)
{
    long skipped = 0;
    t->mm.n = t->ml.n = 0;
    for (size_t i = 0; mode != GEDRASHIW_DISABLED && i < bases->n; i++) {
        uint64_t unconverted = s->of[UNCONVERTED].v[i], converted = s->of[CONVERTED].v[i], both = unconverted + converted;
        if (upper(bases->v[i]) != (uint32_t)"CG"[pattern - 1])
            continue;
        if (s->of[MARKS].v[i] == 0 || both == 0) {
            skipped++;
            continue;
        }
        char skip[24];
        snprintf(skip, sizeof skip, ",%ld", skipped);
        if (t->ml.n == 0)
            add_text(&t->mm, pattern == GEDRASHIW_C_TO_T ? "C+m?" : "G-m?");
        add_text(&t->mm, skip);
        skipped = 0;
        uint64_t ml = 256 * (mode == GEDRASHIW_EM_SEQ ? unconverted : converted) / both;
        t->ml.v[t->ml.n++] = ml > 255 ? 255 : (uint32_t)ml;
    }
    if (t->ml.n > 0)
        add_text(&t->mm, ";");
}

static void tags_are(const char *name, struct gedrashiw_tags r, uint8_t refused, size_t mm, size_t ml)
{
    saw(name, refused);
    same(name, "refused", r.refused, refused);
    same(name, "tagged", r.tagged, refused == 0 && mm > 0);
    same(name, "mm", r.mm, refused ? 0 : mm);
    same(name, "ml", r.ml, refused ? 0 : ml);
    settle(name);
}

/* Few of a long sequence are called, so that a list holds the text. */
static void few_called(struct strand *s, size_t n)
{
    for (size_t i = 0; n > 100 && i < s->of[MARKS].n; i++)
        if (i % 20 != 0)
            s->of[MARKS].v[i] = 0;
}

static void try_tags(void)
{
    static struct list bases;
    static struct tags t;
    struct strand *s = &strands[0];
    some_bases(&bases, some_length());
    some_evidence(s, bases.n);
    few_called(s, bases.n);
    uint8_t pattern = s->annotation, mode = once_in(25) ? (uint8_t)(3 + chance() % 200) : (uint8_t)(once_in(8) ? 0 : 1 + chance() % 2);
    int wrong = pattern == 0 || pattern > 2 || mode > 2;
    uint8_t refused = wrong ? 13 : bases.n > MOST_POSITIONS || too_long(s) ? 7 : ragged(s, bases.n) ? 8 : 0;
    t.mm.n = t.ml.n = 0;
    if (refused == 0)
        tags_of(&bases, s, pattern, mode, &t);
    room[0] = some_room(t.mm.n);
    room[1] = some_room(t.ml.n);
    uint8_t short_one = refused ? refused : room[0] < t.mm.n || room[1] < t.ml.n ? 12 : 0;
    uint8_t short_mm = refused ? refused : room[0] < t.mm.n ? 12 : 0;
    EVERY_PLACE {
        struct gedrashiw_tags r =
            gedrashiw_build_mm_ml_tags(IN8(bases), pattern, EVIDENCE_IN(*s), mode, OUT8(0, room[0]), OUT8(1, room[1]));
        if (short_one == 0) {
            expect(0, 1, &t.mm);
            expect(1, 1, &t.ml);
        }
        tags_are("build_mm_ml_tags", r, short_one, t.mm.n, t.ml.n);
        r = gedrashiw_build_mm_tag_no_ml(IN8(bases), pattern, EVIDENCE_IN(*s), mode, OUT8(0, room[0]));
        if (short_mm == 0)
            expect(0, 1, &t.mm);
        tags_are("build_mm_tag_no_ml", r, short_mm, t.mm.n, 0);
    }
}

/* ---- a record's tags */

enum { SEQ, A_MM, B_MM, MM, ML, A_UNCONVERTED, A_CONVERTED, B_UNCONVERTED, B_CONVERTED, SUM_UNCONVERTED, SUM_CONVERTED, TAG_OUTPUTS };
static struct list tag_lists[TAG_OUTPUTS];

static void append(struct list *to, const struct list *l)
{
    memcpy(to->v + to->n, l->v, l->n * sizeof *l->v);
    to->n += l->n;
}

static void reckon_tags(const struct list *bases, uint8_t mode)
{
    static struct tags t[2];
    struct list *seq = &tag_lists[SEQ];
    *seq = *bases;
    for (int k = 0; k < 2; k++)
        if (strands[k].annotation != 0)
            restore(seq, strands[k].annotation, &strands[k].of[MARKS]);
    for (int k = 0; k < 2; k++) {
        int there = strands[k].annotation != 0;
        t[k].mm.n = t[k].ml.n = 0;
        if (there)
            tags_of(seq, &strands[k], strands[k].annotation, mode, &t[k]);
        tag_lists[A_MM + k] = t[k].mm;
        for (int c = 0; c < 2; c++) {
            struct list *to = &tag_lists[A_UNCONVERTED + 2 * k + c];
            to->n = there ? bases->n : 0;
            for (size_t i = 0; i < to->n; i++)
                to->v[i] = held(strands[k].of[UNCONVERTED + c].v[i]);
        }
    }
    int first = strands[0].annotation == GEDRASHIW_G_TO_A && strands[1].annotation == GEDRASHIW_C_TO_T;
    tag_lists[MM].n = tag_lists[ML].n = 0;
    for (int k = 0; k < 2; k++) {
        append(&tag_lists[MM], &t[k ^ first].mm);
        append(&tag_lists[ML], &t[k ^ first].ml);
    }
    for (int c = 0; c < 2; c++) {
        struct list *to = &tag_lists[SUM_UNCONVERTED + c];
        to->n = bases->n;
        for (size_t i = 0; i < bases->n; i++) {
            uint64_t sum = 0;
            for (int k = 0; k < 2; k++)
                sum += strands[k].annotation != 0 ? strands[k].of[UNCONVERTED + c].v[i] : 0;
            to->v[i] = held(sum);
        }
    }
}

static void tags_of_record_are(const char *name, struct gedrashiw_duplex_tags r, uint8_t refused, size_t positions)
{
    saw(name, refused);
    same(name, "refused", r.refused, refused);
    same(name, "positions", r.positions, refused ? 0 : positions);
    same(name, "aMm", r.aMm, refused ? 0 : tag_lists[A_MM].n);
    same(name, "bMm", r.bMm, refused ? 0 : tag_lists[B_MM].n);
    same(name, "mm", r.mm, refused ? 0 : tag_lists[MM].n);
    same(name, "ml", r.ml, refused ? 0 : tag_lists[ML].n);
    for (int k = 0; refused == 0 && k < TAG_OUTPUTS; k++)
        expect(k, k < A_UNCONVERTED ? 1 : 2, &tag_lists[k]);
    settle(name);
}

static void try_duplex_tags(void)
{
    static struct list bases;
    some_bases(&bases, some_length());
    int long_one = bases.n > MOST_POSITIONS, uneven = 0, wrong = 0;
    for (int k = 0; k < 2; k++) {
        some_evidence(&strands[k], bases.n);
        few_called(&strands[k], bases.n);
        wrong |= strands[k].annotation > 2;
        long_one |= strands[k].annotation != 0 && too_long(&strands[k]);
        uneven |= strands[k].annotation != 0 && ragged(&strands[k], bases.n);
    }
    uint8_t mode = some_choice(), refused = wrong || mode > 2 ? 13 : long_one ? 7 : uneven ? 8 : 0;
    for (int k = 0; k < TAG_OUTPUTS; k++)
        tag_lists[k].n = 0;
    if (refused == 0)
        reckon_tags(&bases, mode);
    for (int k = 0; k < TAG_OUTPUTS; k++)
        room[k] = once_in(3) ? some_room(tag_lists[k].n) : tag_lists[k].n;
    for (int k = 0; k < TAG_OUTPUTS; k++)
        if (refused == 0 && room[k] < tag_lists[k].n)
            refused = 12;
    EVERY_PLACE {
        struct gedrashiw_duplex_tags r = gedrashiw_duplex_methylation_tags(
            IN8(bases), strands[0].annotation, EVIDENCE_IN(strands[0]), strands[1].annotation, EVIDENCE_IN(strands[1]), mode,
            OUT8(SEQ, room[SEQ]), OUT8(A_MM, room[A_MM]), OUT8(B_MM, room[B_MM]), OUT8(MM, room[MM]), OUT8(ML, room[ML]),
            OUT16(A_UNCONVERTED, room[A_UNCONVERTED]), OUT16(A_CONVERTED, room[A_CONVERTED]), OUT16(B_UNCONVERTED, room[B_UNCONVERTED]),
            OUT16(B_CONVERTED, room[B_CONVERTED]), OUT16(SUM_UNCONVERTED, room[SUM_UNCONVERTED]),
            OUT16(SUM_CONVERTED, room[SUM_CONVERTED]));
        tags_of_record_are("duplex_methylation_tags", r, refused, bases.n);
    }
}

/* The same over bytes. A strand's evidence has one length; now and then bytes are missing or left over, and a pattern is wrong, of a strand
 * that is annotated or not. */
struct given {
    uint8_t annotated, pattern;
    size_t bytes;
    uint8_t evidence[9 * (MOST_NUMBERS + 1)];
};

static void give(struct given *g, struct strand *s, size_t n)
{
    some_marks(&s->of[MARKS], about(n));
    some_totals(&s->of[UNCONVERTED], s->of[MARKS].n);
    some_totals(&s->of[CONVERTED], s->of[MARKS].n);
    few_called(s, n);
    g->annotated = some_answer();
    g->pattern = once_in(25) ? (uint8_t)(2 + chance() % 254) : (uint8_t)(chance() % 2);
    g->bytes = 9 * s->of[MARKS].n;
    for (size_t i = 0; i < s->of[MARKS].n; i++) {
        g->evidence[9 * i] = (uint8_t)s->of[MARKS].v[i];
        for (int k = 0; k < 8; k++)
            g->evidence[9 * i + 1 + (size_t)k] = (uint8_t)(s->of[UNCONVERTED + k / 4].v[i] >> 8 * (k % 4));
    }
    size_t odd = once_in(25) ? 1 + chance() % 8 : 0;
    g->bytes = g->bytes == 0 || once_in(2) ? g->bytes + odd : g->bytes - odd;
    s->annotation = g->annotated == 0 ? GEDRASHIW_NOT_ANNOTATED : g->pattern == 0 ? GEDRASHIW_C_TO_T : GEDRASHIW_G_TO_A;
}

#define GIVEN(g) (g).annotated, (g).pattern, (const uint8_t *)lent_parts((g).evidence, (g).bytes), (g).bytes
#define OUT_BYTES(k) OUT8(k, room[k])

static void try_tags_of_bytes(void)
{
    static struct list bases;
    static struct given given[2];
    some_bases(&bases, some_length());
    int long_one = bases.n > MOST_POSITIONS, uneven = 0, broken = 0;
    for (int k = 0; k < 2; k++) {
        give(&given[k], &strands[k], bases.n);
        if (given[k].annotated == 0)
            continue;
        broken |= given[k].pattern > 1 || given[k].bytes % 9 != 0;
        long_one |= given[k].bytes / 9 > MOST_POSITIONS;
        uneven |= given[k].bytes / 9 != bases.n;
    }
    uint8_t mode = some_choice(), refused = broken || mode > 2 ? 13 : long_one ? 7 : uneven ? 8 : 0;
    for (int k = 0; k < TAG_OUTPUTS; k++)
        tag_lists[k].n = 0;
    if (refused == 0)
        reckon_tags(&bases, mode);
    for (int k = 0; k < TAG_OUTPUTS; k++) {
        size_t needed = (k < A_UNCONVERTED ? 1 : 2) * tag_lists[k].n;
        room[k] = once_in(3) ? some_room(needed) : needed;
    }
    for (int k = 0; k < TAG_OUTPUTS; k++)
        if (refused == 0 && room[k] < (k < A_UNCONVERTED ? 1 : 2) * tag_lists[k].n)
            refused = 12;
    EVERY_PLACE {
        struct gedrashiw_duplex_tags r = gedrashiw_methylation_tags(
            IN8(bases), GIVEN(given[0]), GIVEN(given[1]), mode, OUT_BYTES(SEQ), OUT_BYTES(A_MM), OUT_BYTES(B_MM), OUT_BYTES(MM), OUT_BYTES(ML),
            OUT_BYTES(A_UNCONVERTED), OUT_BYTES(A_CONVERTED), OUT_BYTES(B_UNCONVERTED), OUT_BYTES(B_CONVERTED), OUT_BYTES(SUM_UNCONVERTED),
            OUT_BYTES(SUM_CONVERTED));
        tags_of_record_are("methylation_tags", r, refused, bases.n);
    }
}

/* Each entry once, on a case by chance. */
static void one_round(void)
{
    try_gate();
    try_truncate();
    try_counts();
    try_simplex();
    try_restore();
    try_tags();
    try_duplex_tags();
    try_tags_of_bytes();
}

#ifndef FUZZED /* by tests/fuzz */
int main(void)
{
    make_lent_blocks();
    for (int k = 0; k < 8000; k++)
        one_round();
    rows("gate_to_informative", "7 8");
    rows("truncate", "7 8 12");
    rows("unconverted_counts", "7 12");
    rows("converted_counts", "7 12");
    rows("summed_counts", "7 12");
    rows("annotate_simplex_methylation", "13 7 9 10 12");
    rows("restore_unconverted_bases", "13 7 8");
    rows("methylation_strand_bases", "13 7 8 12");
    rows("build_mm_ml_tags", "13 7 8 12");
    rows("build_mm_tag_no_ml", "13 7 8 12");
    rows("duplex_methylation_tags", "13 7 8 12");
    rows("methylation_tags", "13 7 8 12");
    all_nulls();
    printf("the entries over evidence and tags: %ld checks, %ld failures\n", checks, failures);
    return failures != 0;
}
#endif
