/* A molecule from its reads to its tags: partition by strand, read gate, annotation of the strands, combination, consensus gate, metrics,
 * MM and ML, and the read name. The two strands' consensus is what a single-strand caller has made of their reads.
 * `bin/c_sample` builds and runs it; rust/examples/pipeline.rs does the same in Rust and prints the same. */
#include "gedrashiw.h"

#include <stdio.h>
#include <string.h>

#define COUNT(array) (sizeof(array) / sizeof *(array))

/* A read, its bases as they were sequenced. The molecule's R1 record is of the first reads of strand A and the last reads of strand B. */
struct read {
    const char *mi;
    uint16_t flags;
    const char *bases;
};

static const struct read reads[] = {
    {"7/A", 0x41, "ACGTTCGA"}, {"7/A", 0x81, "TTAGGC"}, {"7/B", 0x41, "TTAAGC"}, {"7/B", 0x81, "ACGTCCGA"}, {"7/A", 0x41, "ACGATCGA"},
    {"7/A", 0x81, "TTAGGC"}, {"7/B", 0x41, "TTAAGC"}, {"7/B", 0x81, "ACGTCCAA"}, {"7/A", 0x41, "ACGTTCGA"}, {"7/A", 0x81, "TTAGGC"},
};
static const uint32_t min_reads[] = {3, 2};
static const char reference[] = "ACGTCCGA";

enum { READS = COUNT(reads), POSITIONS = sizeof reference - 1, MM_BYTES = 2 * (5 + 5 * POSITIONS) };

/* Evidence: at each position a mark, and how many reads are unconverted and converted. */
struct evidence {
    uint8_t marks[POSITIONS];
    uint32_t unconverted[POSITIONS], converted[POSITIONS];
};

struct strand {
    const char *bases;
    uint8_t quals[POSITIONS];
    uint16_t depths[POSITIONS], errors[POSITIONS];
    uint8_t pattern;
    struct evidence evidence;
};

/* The numbers of each strand's reads, and the source reads of the record over one buffer: those of A, then those of B. */
struct molecule {
    uint16_t numbers[2][READS];
    size_t count[2];
    struct gedrashiw_source_read source[READS];
    size_t source_count[2];
    uint8_t bytes[256], aligned[256];
    size_t bytes_len;
};

struct record {
    uint8_t bases[POSITIONS], quals[POSITIONS];
    uint16_t errors[POSITIONS];
    struct evidence a, b;
    size_t positions;
};

static int refused(const char *what, uint8_t number)
{
    if (number != GEDRASHIW_OK)
        printf("%s: refused %u\n", what, number);
    return number != GEDRASHIW_OK;
}

static void print_numbers(const char *name, const uint16_t *numbers, size_t count)
{
    printf("%s", name);
    for (size_t i = 0; i < count; i++)
        printf(" %u", numbers[i]);
    printf("\n");
}

static void print_bytes(const char *name, const uint8_t *bytes, size_t count)
{
    printf("%s", name);
    for (size_t i = 0; i < count; i++)
        printf(" %u", bytes[i]);
    printf("\n");
}

static void print_evidence(const char *name, const struct evidence *e, size_t positions)
{
    printf("%s", name);
    for (size_t i = 0; i < positions; i++)
        if (e->marks[i])
            printf(" %lu:%u/%u", (unsigned long)i, e->unconverted[i], e->converted[i]);
    printf("\n");
}

/* Prints which reads are of which strand, and writes the molecule's MI to a text. */
static int partition(struct molecule *m, char *mi)
{
    struct gedrashiw_mi_part parts[READS];
    char text[8 * READS] = "";
    for (size_t i = 0; i < READS; i++) {
        parts[i].present = 1;
        parts[i].offset = strlen(text);
        parts[i].length = strlen(reads[i].mi);
        strcat(text, reads[i].mi);
    }
    struct gedrashiw_partition p = gedrashiw_partition_records_by_strand(parts, READS, (const uint8_t *)text, strlen(text), m->numbers[0],
                                                                         READS, m->numbers[1], READS);
    if (refused("partition", p.refused))
        return 0;
    m->count[0] = p.a;
    m->count[1] = p.b;
    memcpy(mi, text + p.offset, p.length);
    mi[p.length] = 0;
    printf("molecule %s\n", mi);
    print_numbers("  reads of strand A", m->numbers[0], p.a);
    print_numbers("  reads of strand B", m->numbers[1], p.b);
    return 1;
}

/* Prints whether there are enough reads, and collects the source reads. */
static int read_gate(struct molecule *m)
{
    uint16_t flags[2][READS];
    for (int s = 0; s < 2; s++)
        for (size_t k = 0; k < m->count[s]; k++) {
            const struct read *r = &reads[m->numbers[s][k]];
            flags[s][k] = r->flags;
            if (s == 0 ? !gedrashiw_is_paired_r1(r->flags) : !gedrashiw_is_paired_r2(r->flags))
                continue;
            struct gedrashiw_source_read *to = &m->source[m->source_count[0] + m->source_count[1]];
            to->flags = r->flags;
            to->offset = m->bytes_len;
            to->length = strlen(r->bases);
            memcpy(m->bytes + m->bytes_len, r->bases, to->length);
            m->bytes_len += to->length;
            m->source_count[s]++;
        }
    memset(m->aligned, 1, m->bytes_len);
    struct gedrashiw_number gate =
        gedrashiw_has_minimum_number_of_reads(flags[0], m->count[0], flags[1], m->count[1], min_reads, COUNT(min_reads));
    if (refused("read gate", gate.refused))
        return 0;
    printf("read gate: %s\n", gate.number ? "kept" : "below");
    return gate.number != 0;
}

/* The evidence of a strand from its own source reads and the reference. */
static int annotate(const char *name, struct strand *s, const struct molecule *m, size_t first, size_t count)
{
    struct evidence *e = &s->evidence;
    s->pattern = gedrashiw_from_read_flags(m->source[first].flags);
    struct gedrashiw_count n = gedrashiw_annotate_simplex_methylation(
        POSITIONS, m->source + first, count, m->bytes, m->bytes_len, (const uint8_t *)reference, POSITIONS, s->pattern, m->aligned,
        m->bytes_len, 1, e->marks, POSITIONS, e->unconverted, POSITIONS, e->converted, POSITIONS);
    if (refused(name, n.refused))
        return 0;
    print_evidence(name, e, n.count);
    return 1;
}

static int combine(const struct strand *a, const struct strand *b, const struct molecule *m, struct record *r)
{
    struct gedrashiw_settings usual = {GEDRASHIW_MAX_CEILING, GEDRASHIW_MAX_POSITIONS};
    struct gedrashiw_told_molecule molecule = {{1, a->pattern}, {1, b->pattern}, 1, usual};
    struct gedrashiw_duplex_record d = gedrashiw_duplex_consensus_typed(
        molecule, (const uint8_t *)a->bases, POSITIONS, a->quals, POSITIONS, a->depths, POSITIONS, a->errors, POSITIONS,
        a->evidence.marks, POSITIONS, a->evidence.unconverted, POSITIONS, a->evidence.converted, POSITIONS, (const uint8_t *)b->bases,
        POSITIONS, b->quals, POSITIONS, b->depths, POSITIONS, b->errors, POSITIONS, b->evidence.marks, POSITIONS,
        b->evidence.unconverted, POSITIONS, b->evidence.converted, POSITIONS, m->source, m->source_count[0] + m->source_count[1],
        m->bytes, m->bytes_len, r->bases, POSITIONS, r->quals, POSITIONS, r->errors, POSITIONS, r->a.marks, POSITIONS, r->a.unconverted,
        POSITIONS, r->a.converted, POSITIONS, r->b.marks, POSITIONS, r->b.unconverted, POSITIONS, r->b.converted, POSITIONS);
    if (refused("record", d.refused) || d.kind != GEDRASHIW_BOTH_STRANDS)
        return 0;
    r->positions = d.positions;
    printf("record: both strands, %lu positions\n", (unsigned long)d.positions);
    printf("  bases %.*s\n", (int)r->positions, (const char *)r->bases);
    print_bytes("  quals", r->quals, r->positions);
    print_numbers("  errors", r->errors, r->positions);
    struct gedrashiw_number gate =
        gedrashiw_duplex_consensus_has_minimum_reads(r->positions, a->depths, POSITIONS, b->depths, POSITIONS, min_reads, COUNT(min_reads));
    if (refused("consensus gate", gate.refused))
        return 0;
    printf("consensus gate: %s\n", gate.number ? "kept" : "below");
    return gate.number != 0;
}

static double rate(uint32_t bits)
{
    float r;
    memcpy(&r, &bits, sizeof r);
    return r;
}

static int metrics(const struct strand *a, const struct strand *b, const struct record *r)
{
    struct gedrashiw_duplex_figures f = gedrashiw_duplex_metrics(a->depths, POSITIONS, a->errors, POSITIONS, 1, b->depths, POSITIONS,
                                                                 b->errors, POSITIONS, r->bases, r->positions, r->errors, r->positions);
    if (refused("metrics", f.refused))
        return 0;
    printf("metrics\n  aD %u aM %u aE %.6f\n  bD %u bM %u bE %.6f\n  cD %u cM %u cE %.6f\n  nc %u\n", f.aD, f.aM, rate(f.aE), f.bD, f.bM,
           rate(f.bE), f.cD, f.cM, rate(f.cE), f.nc);
    return 1;
}

static int tags(const struct strand *a, const struct strand *b, const struct record *r)
{
    uint8_t seq[POSITIONS], a_mm[MM_BYTES], b_mm[MM_BYTES], mm[MM_BYTES], ml[2 * POSITIONS];
    uint16_t au[POSITIONS], at[POSITIONS], bu[POSITIONS], bt[POSITIONS], cu[POSITIONS], ct[POSITIONS];
    struct gedrashiw_duplex_tags t = gedrashiw_duplex_methylation_tags(
        r->bases, r->positions, a->pattern, r->a.marks, r->positions, r->a.unconverted, r->positions, r->a.converted, r->positions,
        b->pattern, r->b.marks, r->positions, r->b.unconverted, r->positions, r->b.converted, r->positions, GEDRASHIW_EM_SEQ, seq,
        POSITIONS, a_mm, MM_BYTES, b_mm, MM_BYTES, mm, MM_BYTES, ml, sizeof ml, au, POSITIONS, at, POSITIONS, bu, POSITIONS, bt, POSITIONS,
        cu, POSITIONS, ct, POSITIONS);
    if (refused("tags", t.refused))
        return 0;
    printf("tags\n  SEQ %.*s\n  am %.*s\n  bm %.*s\n  MM %.*s\n", (int)t.positions, (const char *)seq, (int)t.aMm, (const char *)a_mm,
           (int)t.bMm, (const char *)b_mm, (int)t.mm, (const char *)mm);
    print_bytes("  ML", ml, t.ml);
    print_numbers("  cu", cu, t.positions);
    print_numbers("  ct", ct, t.positions);
    return 1;
}

static int name_and_flags(const char *mi)
{
    uint8_t name[64];
    struct gedrashiw_count n =
        gedrashiw_write_consensus_read_name(name, sizeof name, (const uint8_t *)"sample", 6, (const uint8_t *)mi, strlen(mi));
    struct gedrashiw_number flags = gedrashiw_written_flags(GEDRASHIW_R1);
    if (refused("read name", n.refused) || refused("flags", flags.refused))
        return 0;
    printf("read %.*s, flags %u\n", (int)n.count, (const char *)name, flags.number);
    return 1;
}

int main(void)
{
    static struct molecule m;
    static struct strand a = {
        "ACGTTCGA", {40, 40, 40, 30, 40, 40, 40, 40}, {3, 3, 3, 3, 3, 3, 3, 3}, {0, 0, 0, 1, 0, 0, 0, 0}, 0, {{0}, {0}, {0}}};
    static struct strand b = {
        "ACGTCCGA", {35, 35, 35, 35, 35, 35, 20, 35}, {2, 2, 2, 2, 2, 2, 2, 2}, {0, 0, 0, 0, 0, 0, 1, 0}, 0, {{0}, {0}, {0}}};
    static struct record r;
    char mi[16];
    int done = partition(&m, mi) && read_gate(&m) && annotate("evidence of strand A", &a, &m, 0, m.source_count[0]) &&
               annotate("evidence of strand B", &b, &m, m.source_count[0], m.source_count[1]) && combine(&a, &b, &m, &r) &&
               metrics(&a, &b, &r) && tags(&a, &b, &r) && name_and_flags(mi);
    return done ? 0 : 1;
}
