/* Builds molecules, asks the library for their duplex records, for the reasons where these show N, and for their metrics, and prints all.
 * `bin/c_sample` builds and runs it; rust/examples/sample.rs does the same in Rust and prints the same. */
#include "gedrashiw.h"

#include <stdio.h>
#include <string.h>

/* The most positions of a strand here. The library takes up to 1,024. */
#define MOST 16

/* A strand in the numbers of this program. */
struct strand {
    const char *bases;
    uint8_t quals[MOST];
    uint16_t depths[MOST];
    uint16_t errors[MOST];
    size_t evidence_len; /* in positions; 0: no annotation */
    uint8_t pattern;     /* 0: C to T, 1: G to A */
    struct {
        uint8_t informative;
        uint32_t unconverted, converted;
    } evidence[MOST];
};

struct read {
    uint16_t flags;
    const char *bases;
};

/* The same strand as the library takes it: wider numbers as bytes, low byte first. */
struct strand_bytes {
    size_t positions;
    uint8_t depths[2 * MOST], errors[2 * MOST], evidence[GEDRASHIW_EVIDENCE_BYTES * MOST];
};

static void put16(uint8_t *at, uint16_t n)
{
    at[0] = (uint8_t)n;
    at[1] = (uint8_t)(n >> 8);
}

static void put32(uint8_t *at, uint32_t n)
{
    put16(at, (uint16_t)n);
    put16(at + 2, (uint16_t)(n >> 16));
}

static uint32_t get32(const uint8_t *at)
{
    return at[0] | at[1] << 8 | at[2] << 16 | (uint32_t)at[3] << 24;
}

static struct strand_bytes bytes_of(const struct strand *s)
{
    struct strand_bytes b = {.positions = strlen(s->bases)};
    for (size_t i = 0; i < b.positions; i++) {
        uint8_t *evidence = b.evidence + GEDRASHIW_EVIDENCE_BYTES * i;
        put16(b.depths + 2 * i, s->depths[i]);
        put16(b.errors + 2 * i, s->errors[i]);
        evidence[0] = s->evidence[i].informative;
        put32(evidence + 1, s->evidence[i].unconverted);
        put32(evidence + 5, s->evidence[i].converted);
    }
    return b;
}

/* The reads one after another, each a field 30. Answers how many bytes they are. */
static size_t put_reads(uint8_t *at, const struct read *reads, size_t count)
{
    uint8_t *start = at;
    for (size_t i = 0; i < count; i++) {
        size_t len = strlen(reads[i].bases);
        at[0] = 0x30;
        put16(at + 1, (uint16_t)(len + 2));
        put16(at + 3, reads[i].flags);
        memcpy(at + 5, reads[i].bases, len);
        at += 5 + len;
    }
    return (size_t)(at - start);
}

static void print_evidence(const char *name, const uint8_t *evidence, size_t positions)
{
    printf("%s", name);
    for (size_t i = 0; i < positions; i++, evidence += GEDRASHIW_EVIDENCE_BYTES)
        if (evidence[0])
            printf(" %zu:%u/%u", i, get32(evidence + 1), get32(evidence + 5));
    printf("\n");
}

static float rate(const uint8_t *at)
{
    uint32_t bits = get32(at);
    float r;
    memcpy(&r, &bits, sizeof r);
    return r;
}

/* What the library writes. */
struct outputs {
    uint8_t bases[MOST], quals[MOST], errors[2 * MOST];
    uint8_t a_evidence[GEDRASHIW_EVIDENCE_BYTES * MOST], b_evidence[GEDRASHIW_EVIDENCE_BYTES * MOST];
};

static void print_record(const char *name, struct gedrashiw_duplex_record r, const struct outputs *out)
{
    static const char *const kinds[] = {"no record", "strand A alone", "strand B alone", "both strands"};
    printf("%s: %s, %zu positions\n", name, kinds[r.kind], r.positions);
    if (r.kind == GEDRASHIW_NO_RECORD)
        return;
    printf("  bases %.*s\n  quals", (int)r.positions, (const char *)out->bases);
    for (size_t i = 0; i < r.positions; i++)
        printf(" %u", out->quals[i]);
    printf("\n  errors");
    for (size_t i = 0; i < r.positions; i++)
        printf(" %u", out->errors[2 * i] | out->errors[2 * i + 1] << 8);
    printf("\n");
}

/* What a person reads under an N, by the number of its reason: the sentences of the Rust crate. */
static const char *const sentences[] = {
    [GEDRASHIW_REASON_OUTSIDE] = "No record reaches this position.",
    [GEDRASHIW_REASON_SINGLE_STRAND] = "The record is of one strand alone, and shows that strand's base as it is.",
    [GEDRASHIW_REASON_CALLED] = "A base is called here.",
    [GEDRASHIW_REASON_A_NO_CALL] = "Strand A shows N here; strand B shows a base.",
    [GEDRASHIW_REASON_B_NO_CALL] = "Strand B shows N here; strand A shows a base.",
    [GEDRASHIW_REASON_BOTH_NO_CALL] = "Both strands show N here.",
    [GEDRASHIW_REASON_EQUAL_QUALITIES] = "The strands show different bases at equal qualities, so neither wins.",
    [GEDRASHIW_REASON_CLOSE_QUALITIES] = "The strands show different bases, and their qualities differ by only 1 or 2.",
    [GEDRASHIW_REASON_LOW_SUM] = "The qualities of the two strands count together here, and add up to no more than 2.",
    [GEDRASHIW_REASON_LOW_CONFIRMING] =
        "Only the quality of the strand that confirms the methylation call counts here, and it is no more than 2.",
};

/* The metrics of a record's own strands, which are cut to its length where there are two. */
static void print_metrics(const struct strand_bytes *first, const struct strand_bytes *second, size_t positions,
                          const struct outputs *out)
{
    static const struct strand_bytes none;
    uint8_t metrics[GEDRASHIW_METRICS_BYTES];
    const struct strand_bytes *b = second ? second : &none;
    uint8_t refused = gedrashiw_metrics(first->depths, 2 * positions, first->errors, 2 * positions, second != NULL, b->depths,
                                        2 * positions, b->errors, 2 * positions, out->bases, positions, out->errors, 2 * positions,
                                        metrics, sizeof metrics);
    if (refused != 0) {
        printf("  its metrics: refused %u\n", refused);
        return;
    }
    for (int k = 0; k < 3; k++)
        printf("  %cD %u %cM %u %cE %.6f\n", "abc"[k], get32(metrics + 12 * k), "abc"[k], get32(metrics + 12 * k + 4), "abc"[k],
               (double)rate(metrics + 12 * k + 8));
    printf("  nc %u\n", get32(metrics + 36));
}

/* What is told of a strand, which may be null: it is not there. */
static struct gedrashiw_told_encoded_strand told(const struct strand *s)
{
    struct gedrashiw_told_encoded_strand t = {s != NULL, s != NULL && s->evidence_len > 0, s != NULL ? s->pattern : 0};
    return t;
}

enum product { BATCH, PREVIEW };

/* a and b may be null: the strand is not there. reads may be null: there is no list. */
static void print_at(const char *name, enum product product, struct gedrashiw_settings settings, const struct strand *a,
                     const struct strand *b, const struct read *reads, size_t count)
{
    static const struct strand none = {.bases = ""};
    const struct strand *x = a ? a : &none, *y = b ? b : &none;
    struct strand_bytes xs = bytes_of(x), ys = bytes_of(y);
    struct outputs out;
    uint8_t run[256];
    size_t run_len = reads ? put_reads(run, reads, count) : 0;

    struct gedrashiw_told_encoded_molecule molecule = {told(a), told(b), reads != NULL, settings};
    struct gedrashiw_duplex_record r = (product == PREVIEW ? gedrashiw_preview_consensus : gedrashiw_duplex_consensus)(
        molecule, (const uint8_t *)x->bases, xs.positions, x->quals, xs.positions, xs.depths, 2 * xs.positions, xs.errors,
        2 * xs.positions, xs.evidence, GEDRASHIW_EVIDENCE_BYTES * x->evidence_len, (const uint8_t *)y->bases, ys.positions, y->quals,
        ys.positions, ys.depths, 2 * ys.positions, ys.errors, 2 * ys.positions, ys.evidence,
        GEDRASHIW_EVIDENCE_BYTES * y->evidence_len, run, run_len, out.bases, sizeof out.bases, out.quals, sizeof out.quals, out.errors,
        sizeof out.errors, out.a_evidence, sizeof out.a_evidence, out.b_evidence, sizeof out.b_evidence);

    if (r.refused != 0) {
        printf("%s: refused %u\n", name, r.refused);
        return;
    }
    print_record(name, r, &out);
    if (r.kind == GEDRASHIW_NO_RECORD)
        return;
    for (size_t i = 0; i < r.positions; i++) {
        if (out.bases[i] != 'N')
            continue;
        /* What was not refused above is not refused here. */
        struct gedrashiw_reason why = gedrashiw_no_call_reason(
            a != NULL, x->evidence_len > 0, x->pattern, (const uint8_t *)x->bases, xs.positions, x->quals, xs.positions, xs.depths,
            2 * xs.positions, xs.errors, 2 * xs.positions, xs.evidence, GEDRASHIW_EVIDENCE_BYTES * x->evidence_len, b != NULL,
            y->evidence_len > 0, y->pattern, (const uint8_t *)y->bases, ys.positions, y->quals, ys.positions, ys.depths,
            2 * ys.positions, ys.errors, 2 * ys.positions, ys.evidence, GEDRASHIW_EVIDENCE_BYTES * y->evidence_len, i);
        printf("  N at %zu: %s\n", i, sentences[why.reason]);
    }
    /* B alone is the record's first strand. */
    int b_alone = r.kind == GEDRASHIW_B_ALONE, both = r.kind == GEDRASHIW_BOTH_STRANDS;
    if ((b_alone ? y : x)->evidence_len > 0)
        print_evidence("  evidence of the first strand", out.a_evidence, r.positions);
    if (both && y->evidence_len > 0)
        print_evidence("  evidence of the second strand", out.b_evidence, r.positions);
    print_metrics(b_alone ? &ys : &xs, both ? &ys : NULL, r.positions, &out);
}

static void print_molecule(const char *name, const struct strand *a, const struct strand *b, const struct read *reads, size_t count)
{
    static const struct gedrashiw_settings usual = {GEDRASHIW_MAX_CEILING, GEDRASHIW_MAX_POSITIONS};
    print_at(name, BATCH, usual, a, b, reads, count);
}

int main(void)
{
    static const struct gedrashiw_settings sixty = {60, GEDRASHIW_MAX_POSITIONS}, two = {2, GEDRASHIW_MAX_POSITIONS};
    static const struct gedrashiw_settings of_three = {GEDRASHIW_MAX_CEILING, 3};
    static const struct gedrashiw_settings preview = {GEDRASHIW_MAX_CEILING, GEDRASHIW_PREVIEW_POSITIONS};
    /* Document 01's printed example. */
    struct strand a = {.bases = "ACGT", .quals = {30, 30, 30, 30}, .depths = {2, 2, 2, 2}};
    struct strand b = {.bases = "ACTN", .quals = {20, 40, 30, 2}, .depths = {1, 1, 1, 1}};
    print_molecule("two strands", &a, &b, NULL, 0);
    print_at("two strands, no quality above 60", BATCH, sixty, &a, &b, NULL, 0);
    print_at("two strands, no quality above 2", BATCH, two, &a, &b, NULL, 0);
    print_at("two strands, of 3 positions at most", BATCH, of_three, &a, &b, NULL, 0);
    print_at("two strands, in a preview", PREVIEW, preview, &a, &b, NULL, 0);
    print_molecule("strand B", NULL, &b, NULL, 0);
    b.depths[0] = b.depths[1] = b.depths[2] = b.depths[3] = 0;
    print_molecule("an uncovered strand", NULL, &b, NULL, 0);

    /* Two strands with methylation evidence, and the reads that they were called of. */
    struct strand ct = {.bases = "TCGATC",
                        .quals = {30, 30, 35, 30, 40, 20},
                        .depths = {4, 4, 4, 4, 4, 3},
                        .errors = {0, 0, 1, 0, 0, 0},
                        .evidence_len = 6,
                        .pattern = 0,
                        .evidence = {{1, 1, 3}, {1, 4, 0}, {0, 0, 0}, {0, 0, 0}, {0, 2, 2}, {1, 3, 0}}};
    struct strand ga = {.bases = "CCGGTA",
                        .quals = {40, 35, 30, 30, 20, 33},
                        .depths = {2, 2, 2, 2, 2, 2},
                        .evidence_len = 6,
                        .pattern = 1,
                        .evidence = {{0, 0, 0}, {0, 0, 0}, {1, 2, 0}, {1, 1, 1}, {0, 0, 0}, {0, 0, 0}}};
    static const struct read reads[] = {{0x41, "TCGATC"}, {0x41, "CCGATC"}, {0x81, "CCAGTA"}, {0x81, "CCGN"}};
    print_molecule("annotated strands with reads", &ct, &ga, reads, 4);

    /* Evidence of fewer positions than the strand. */
    ga.evidence_len = 5;
    print_molecule("evidence too short", &ct, &ga, NULL, 0);
    return 0;
}
