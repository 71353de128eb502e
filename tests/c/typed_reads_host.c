/* Calls the typed entries over reads, gates, depths, metrics and single numbers as a C program does, on cases by chance and at the limits.
 * What is expected is worked out here, from document 01. Arrays lie as lists.h has them. */
#define _DEFAULT_SOURCE
#include "lists.h"

enum { CAP = 32767, MOST_POSITIONS = 1024, MOST_READS = 1024 };

static uint32_t capped(uint32_t n)
{
    return n > CAP ? CAP : n;
}

static uint32_t at(const struct list *l, size_t i)
{
    return i < l->n ? l->v[i] : 0;
}

/* The bits of e / d, each first the nearest binary32: what a C compiler makes of it. */
static uint32_t rate(uint64_t e, uint64_t d)
{
    float r = d == 0 ? 0.0f : (float)e / (float)d;
    uint32_t bits;
    memcpy(&bits, &r, 4);
    return bits;
}

/* ---- thresholds and gates */

static struct list min_reads;

static void some_thresholds(void)
{
    static const uint32_t usual[] = {0, 1, 1, 2, 3, 40000, 65535, 4294967295u};
    min_reads.n = once_in(8) ? chance() % 6 : 1 + chance() % 3;
    for (size_t i = 0; i < min_reads.n; i++)
        min_reads.v[i] = some_of(usual, 8, 5);
    if (min_reads.n > 1 && once_in(2))
        for (size_t i = 1; i < min_reads.n; i++)
            min_reads.v[i] = min_reads.v[i] > min_reads.v[i - 1] ? min_reads.v[i - 1] : min_reads.v[i];
}

/* The row, or 0 and the three. */
static uint8_t thresholds(uint32_t t[3])
{
    for (size_t k = 0; k < 3 && min_reads.n > 0; k++)
        t[k] = min_reads.v[k < min_reads.n ? k : min_reads.n - 1];
    return min_reads.n == 0 ? 1 : min_reads.n > 3 ? 2 : t[0] < t[1] ? 3 : t[1] < t[2] ? 4 : 0;
}

static int reaches(const uint32_t t[3], uint64_t a, uint64_t b)
{
    return a + b >= t[0] && (a > b ? a : b) >= t[1] && (a > b ? b : a) >= t[2];
}

static void number_is(const char *name, struct gedrashiw_number r, uint8_t refused, uint32_t number)
{
    saw(name, refused);
    same(name, "refused", r.refused, refused);
    same(name, "number", r.number, refused ? 0 : number);
    settle(name);
}

static void try_thresholds(void)
{
    uint32_t t[3] = {0, 0, 0};
    some_thresholds();
    uint8_t refused = thresholds(t);
    EVERY_PLACE {
        struct gedrashiw_thresholds r = gedrashiw_validate_min_reads(IN32(min_reads));
        saw("validate_min_reads", refused);
        same("validate_min_reads", "refused", r.refused, refused);
        same("validate_min_reads", "total", r.total, refused ? 0 : t[0]);
        same("validate_min_reads", "xy", r.xy, refused ? 0 : t[1]);
        same("validate_min_reads", "yx", r.yx, refused ? 0 : t[2]);
        settle("validate_min_reads");
        number_is("min_yx_reads_for", gedrashiw_min_yx_reads_for(IN32(min_reads)), refused, t[2]);
        number_is("allows_single_strand", gedrashiw_allows_single_strand_consensus(IN32(min_reads)), refused, t[2] == 0);
    }
}

static struct list a_list, b_list;

static void some_flags(struct list *l, size_t n)
{
    static const uint32_t usual[] = {0x41, 0x41, 0x81, 0x51, 0x91, 0x40, 0x1, 0, 0xc1};
    l->n = n;
    for (size_t i = 0; i < n; i++)
        l->v[i] = some_of(usual, 9, 65536);
}

static uint64_t first_reads(const struct list *l)
{
    uint64_t count = 0;
    for (size_t i = 0; i < l->n; i++)
        count += (l->v[i] & 0x41) == 0x41;
    return count;
}

static void try_read_gate(void)
{
    uint32_t t[3] = {0, 0, 0};
    some_thresholds();
    some_flags(&a_list, some_length());
    some_flags(&b_list, some_length());
    uint8_t refused = thresholds(t);
    if (refused == 0 && (a_list.n > MOST_READS || b_list.n > MOST_READS))
        refused = 9;
    int kept = reaches(t, first_reads(&a_list), first_reads(&b_list));
    EVERY_PLACE
        number_is("has_minimum_number_of_reads",
                  gedrashiw_has_minimum_number_of_reads(IN16(a_list), IN16(b_list), IN32(min_reads)), refused, (uint32_t)kept);
    int one = 1;
    for (size_t i = 0; i < a_list.n; i++)
        one &= (a_list.v[i] & 0x10) == (a_list.v[0] & 0x10);
    EVERY_PLACE
        number_is("are_all_same_strand", gedrashiw_are_all_same_strand(IN16(a_list)), a_list.n > MOST_READS ? 9 : 0, (uint32_t)one);
}

static void try_consensus_gate(void)
{
    uint32_t t[3] = {0, 0, 0}, a = 0, b = 0;
    size_t positions = some_length();
    some_thresholds();
    some_counts(&a_list, some_length());
    some_counts(&b_list, some_length());
    for (size_t i = 0; i < positions; i++) {
        a = at(&a_list, i) > a ? at(&a_list, i) : a;
        b = at(&b_list, i) > b ? at(&b_list, i) : b;
    }
    uint8_t refused = thresholds(t);
    if (refused == 0 && (positions > MOST_POSITIONS || a_list.n > MOST_POSITIONS || b_list.n > MOST_POSITIONS))
        refused = 7;
    EVERY_PLACE
        number_is("duplex_consensus_has_minimum_reads",
                  gedrashiw_duplex_consensus_has_minimum_reads(positions, IN16(a_list), IN16(b_list), IN32(min_reads)), refused,
                  (uint32_t)reaches(t, a, b));
}

/* ---- the partition */

static struct gedrashiw_mi_part parts[MOST_NUMBERS];

static void some_parts(size_t n, struct list *text)
{
    static const char letters[] = "AB/A/B/AB/x";
    text->n = once_in(40) ? 0 : 40; /* without text every part that is there leaves it */
    for (size_t i = 0; i < 40; i++)
        text->v[i] = (uint8_t)letters[chance() % (sizeof letters - 1)];
    memcpy(text->v + 20, (const uint32_t[]){'m', '/', 'A', 'm', '/', 'B', '/', 'A'}, 8 * sizeof *text->v);
    for (size_t i = 0; i < n; i++) {
        static const struct gedrashiw_mi_part usual[] = {{1, 20, 3}, {1, 23, 3}, {1, 26, 2}, {9, 20, 6}};
        parts[i] = usual[chance() % 4];
        if (once_in(200))
            parts[i] = (struct gedrashiw_mi_part){1, chance() % 42, chance() % 4};
        if (once_in(300))
            parts[i] = (struct gedrashiw_mi_part){1, SIZE_MAX - chance() % 3, chance() % 4};
        if (once_in(200))
            parts[i] = (struct gedrashiw_mi_part){0, chance(), chance()};
    }
}

/* 1: strand A; 2: strand B; 0: neither. */
static uint8_t strand_named(const uint32_t *text, size_t n)
{
    return n < 2 || text[n - 2] != '/' ? 0 : text[n - 1] == 'A' ? 1 : text[n - 1] == 'B' ? 2 : 0;
}

static void try_partition(void)
{
    static struct list text, a, b;
    size_t n = some_length(), a_room = some_room(n), b_room = some_room(n);
    some_parts(n, &text);
    a.n = b.n = 0;
    int leaves = 0, offence = 0;
    for (size_t i = 0; i < n; i++)
        leaves |= parts[i].present && (parts[i].offset > text.n || parts[i].length > text.n - parts[i].offset);
    for (size_t i = 0; i < n && n <= MOST_READS && !leaves && offence == 0; i++) {
        uint8_t strand = parts[i].present ? strand_named(text.v + parts[i].offset, parts[i].length) : 0;
        offence = strand != 0 ? 0 : parts[i].present ? 6 : 5;
        struct list *to = strand == 1 ? &a : &b;
        if (strand != 0)
            to->v[to->n++] = (uint32_t)i;
    }
    uint8_t refused = n > MOST_READS ? 9 : leaves ? 10 : a_room < n || b_room < n ? 12 : (uint8_t)offence;
    int read = refused == 0 && n > 0;
    EVERY_PLACE {
        struct gedrashiw_partition r = gedrashiw_partition_records_by_strand(
            (const struct gedrashiw_mi_part *)lent_parts(parts, n * sizeof *parts), n, IN8(text), OUT16(0, a_room), OUT16(1, b_room));
        const char *name = "partition_records_by_strand";
        saw(name, refused);
        same(name, "refused", r.refused, refused);
        same(name, "a", r.a, refused ? 0 : a.n);
        same(name, "b", r.b, refused ? 0 : b.n);
        same(name, "base_mi", r.base_mi, (uint64_t)read);
        same(name, "offset", r.offset, read ? parts[0].offset : 0);
        same(name, "length", r.length, read ? parts[0].length - 2 : 0);
        if (refused == 0) {
            expect(0, 2, &a);
            expect(1, 2, &b);
        }
        settle(name);
    }
    text.n = chance() % 5;
    EVERY_PLACE {
        same("extract_strand_from_mi_bytes", "strand", gedrashiw_extract_strand_from_mi_bytes(IN8(text)), strand_named(text.v, text.n));
        settle("extract_strand_from_mi_bytes");
    }
}

/* ---- depths and metrics */

struct figures {
    uint32_t largest, smallest;
    uint64_t depths, errors;
};

static struct figures figures_of(const struct list *one, const struct list *two, size_t n, const struct list *wrong)
{
    struct figures f = {0, 0, 0, 0};
    for (size_t i = 0; i < n; i++) {
        uint32_t d = capped(at(one, i)) + capped(at(two, i));
        f.largest = d > f.largest ? d : f.largest;
        f.smallest = i == 0 || d < f.smallest ? d : f.smallest;
        f.depths += d;
    }
    for (size_t i = 0; i < wrong->n; i++)
        f.errors += capped(wrong->v[i]);
    return f;
}

static struct list a_errors, b_errors, bases, errors;
static const struct list none;

static void try_strand_metrics(void)
{
    some_counts(&a_list, some_length());
    some_counts(&a_errors, about(a_list.n));
    uint8_t refused = a_list.n > MOST_POSITIONS || a_errors.n > MOST_POSITIONS ? 7 : a_list.n != a_errors.n ? 8 : 0;
    struct figures f = figures_of(&a_list, &none, a_list.n, &a_errors);
    uint64_t d = 0, e = 0;
    uint32_t largest = 0, smallest = 0;
    for (size_t i = 0; i < a_list.n; i++) {
        d += a_list.v[i];
        e += at(&a_errors, i);
        largest = a_list.v[i] > largest ? a_list.v[i] : largest;
        smallest = i == 0 || a_list.v[i] < smallest ? a_list.v[i] : smallest;
    }
    EVERY_PLACE {
        struct gedrashiw_figures r = gedrashiw_strand_metrics(IN16(a_list), IN16(a_errors));
        saw("strand_metrics", refused);
        same("strand_metrics", "refused", r.refused, refused);
        same("strand_metrics", "largest", r.largest, refused ? 0 : f.largest);
        same("strand_metrics", "smallest", r.smallest, refused ? 0 : f.smallest);
        same("strand_metrics", "depths", r.depths, refused ? 0 : f.depths);
        same("strand_metrics", "errors", r.errors, refused ? 0 : f.errors);
        settle("strand_metrics");
        number_is("calculate_error_rate", gedrashiw_calculate_error_rate(IN16(a_list), IN16(a_errors)), refused, rate(e, d));
        uint8_t too_long = a_list.n > MOST_POSITIONS ? 7 : 0;
        number_is("max_depth", gedrashiw_max_depth(IN16(a_list)), too_long, largest);
        number_is("min_depth", gedrashiw_min_depth(IN16(a_list)), too_long, smallest);
    }
}

static void try_duplex_metrics(void)
{
    uint8_t second = some_answer();
    some_counts(&a_list, some_length());
    some_counts(&a_errors, about(a_list.n));
    some_counts(&b_list, some_length());
    some_counts(&b_errors, about(b_list.n));
    some_bases(&bases, once_in(2) ? a_list.n : some_length());
    some_counts(&errors, about(bases.n));
    const struct list *of[] = {&a_list, &a_errors, &bases, &errors, &b_list, &b_errors};
    int too_long = 0, ragged = 0;
    for (int k = 0; k < (second ? 6 : 4); k++) {
        too_long |= of[k]->n > MOST_POSITIONS;
        ragged |= of[k]->n != of[k ^ 1]->n;
    }
    uint8_t refused = too_long ? 7 : ragged ? 8 : 0;
    const struct list *b = second ? &b_list : &none;
    struct figures f[3] = {figures_of(&a_list, &none, a_list.n, &a_errors), figures_of(b, &none, b->n, second ? &b_errors : &none),
                           figures_of(&a_list, b, bases.n, &errors)};
    uint32_t nc = 0;
    for (size_t i = 0; i < bases.n; i++)
        nc += bases.v[i] == 'N' && at(&a_list, i) + at(b, i) > 0;
    EVERY_PLACE {
        struct gedrashiw_duplex_figures r = gedrashiw_duplex_metrics(IN16(a_list), IN16(a_errors), second, IN16(b_list), IN16(b_errors),
                                                                     IN8(bases), IN16(errors));
        const uint32_t got[] = {r.aD, r.aM, r.aE, r.bD, r.bM, r.bE, r.cD, r.cM, r.cE};
        saw("duplex_metrics", refused);
        same("duplex_metrics", "refused", r.refused, refused);
        for (int k = 0; k < 3; k++) {
            same("duplex_metrics", "D", got[3 * k], refused ? 0 : f[k].largest);
            same("duplex_metrics", "M", got[3 * k + 1], refused ? 0 : f[k].smallest);
            same("duplex_metrics", "E", got[3 * k + 2], refused ? 0 : rate(f[k].errors, f[k].depths));
        }
        same("duplex_metrics", "nc", r.nc, refused ? 0 : nc);
        settle("duplex_metrics");
    }
}

static void try_combined_depths(void)
{
    static struct list sums;
    size_t positions = some_length(), room = some_room(positions);
    some_counts(&a_list, some_length());
    some_counts(&b_list, some_length());
    uint8_t long_one = positions > MOST_POSITIONS || a_list.n > MOST_POSITIONS || b_list.n > MOST_POSITIONS ? 7 : 0;
    uint8_t refused = long_one ? long_one : room < positions ? 12 : 0;
    uint32_t largest = 0, smallest = 0;
    sums.n = refused ? 0 : positions;
    for (size_t i = 0; i < positions; i++) {
        uint32_t sum = at(&a_list, i) + at(&b_list, i);
        sums.v[i] = sum > 65535 ? 65535 : sum;
        largest = sums.v[i] > largest ? sums.v[i] : largest;
        smallest = i == 0 || sums.v[i] < smallest ? sums.v[i] : smallest;
    }
    EVERY_PLACE {
        struct gedrashiw_count r = gedrashiw_combined_depths(positions, IN16(a_list), IN16(b_list), OUT16(0, room));
        saw("combined_depths", refused);
        same("combined_depths", "refused", r.refused, refused);
        same("combined_depths", "count", r.count, refused ? 0 : positions);
        expect(0, 2, &sums);
        settle("combined_depths");
        struct gedrashiw_range range = gedrashiw_depth_range(positions, IN16(a_list), IN16(b_list));
        saw("depth_range", long_one);
        same("depth_range", "refused", range.refused, long_one);
        same("depth_range", "min", range.min, long_one ? 0 : smallest);
        same("depth_range", "max", range.max, long_one ? 0 : largest);
        settle("depth_range");
    }
}

/* ---- names and single numbers */

static void try_read_name(void)
{
    static struct list prefix, umi, whole;
    some_bases(&prefix, chance() % 6);
    some_bases(&umi, chance() % 6);
    whole.n = prefix.n + 1 + umi.n;
    memcpy(whole.v, prefix.v, prefix.n * sizeof *whole.v);
    whole.v[prefix.n] = ':';
    memcpy(whole.v + prefix.n + 1, umi.v, umi.n * sizeof *whole.v);
    size_t room = some_room(whole.n);
    uint8_t refused = room < whole.n ? 12 : 0;
    EVERY_PLACE {
        struct gedrashiw_count r = gedrashiw_write_consensus_read_name(OUT8(0, room), IN8(prefix), IN8(umi));
        saw("write_consensus_read_name", refused);
        same("write_consensus_read_name", "refused", r.refused, refused);
        same("write_consensus_read_name", "count", r.count, refused ? 0 : whole.n);
        if (refused == 0)
            expect(0, 1, &whole);
        settle("write_consensus_read_name");
    }
}

static void try_context(void)
{
    static struct list text;
    some_bases(&text, chance() % 6);
    size_t pos = once_in(10) ? SIZE_MAX - chance() % 3 : chance() % 7;
    uint8_t top = some_answer();
    uint32_t here = pos < text.n ? text.v[pos] & ~0x20u : 0;
    uint32_t next = pos < text.n && pos + 1 < text.n ? text.v[pos + 1] & ~0x20u : 0;
    uint32_t last = pos > 0 && pos < text.n ? text.v[pos - 1] & ~0x20u : 0;
    EVERY_PLACE {
        same("is_cpg_context", "answer", gedrashiw_is_cpg_context(IN8(text), pos, top),
             top ? here == 'C' && next == 'G' : here == 'G' && last == 'C');
        settle("is_cpg_context");
    }
}

static void try_rate(void)
{
    static const uint32_t usual[] = {0, 1, 2, 12, 16777215, 16777216, 16777217, 33554435, 67108864, 4294967295u};
    uint32_t e = some_of(usual, 10, 1u << 24), d = some_of(usual, 10, 1u << 24);
    same("rate_bits", "rate", gedrashiw_rate_bits(e, d), rate(e, d));
}

static void quality_is(uint32_t score, uint8_t ceiling)
{
    uint32_t most = score < ceiling ? score : ceiling;
    number_is("cap_quality", gedrashiw_cap_quality((uint16_t)score, ceiling), ceiling < 3 || ceiling > 93 ? 14 : 0, most < 2 ? 2 : most);
}

/* The entries over one number of 16 bits, or over its two bytes: as bases, or as a score and a ceiling. */
static void of_number(uint32_t n)
{
    uint8_t x = (uint8_t)n, y = (uint8_t)(n >> 8);
    quality_is(n, GEDRASHIW_MAX_CEILING);
    quality_is(y, x);
    same("clamp_per_base", "depth", gedrashiw_clamp_per_base_to_fgbio_short((uint16_t)n), capped(n));
    same("is_paired", "flags", gedrashiw_is_paired((uint16_t)n), n & 1);
    same("is_paired_r1", "flags", gedrashiw_is_paired_r1((uint16_t)n), (n & 0x41) == 0x41);
    same("is_paired_r2", "flags", gedrashiw_is_paired_r2((uint16_t)n), (n & 0x81) == 0x81);
    same("from_read_flags", "flags", gedrashiw_from_read_flags((uint16_t)n), n & 0x80 ? GEDRASHIW_G_TO_A : GEDRASHIW_C_TO_T);
    same("is_error", "bases", gedrashiw_is_error(x, y), x != y && x != 'N' && y != 'N');
    uint8_t ct = x >= 'a' && x <= 'z' ? (uint8_t)(x - 32) : x, ga = y >= 'a' && y <= 'z' ? (uint8_t)(y - 32) : y;
    int c = ga == 'C' && (ct == 'C' || ct == 'T'), g = !c && ct == 'G' && (ga == 'G' || ga == 'A');
    struct gedrashiw_call r = gedrashiw_molecule_call(x, y);
    same("molecule_call", "pattern", r.pattern, c ? GEDRASHIW_C_TO_T : g ? GEDRASHIW_G_TO_A : 0);
    same("molecule_call", "call", r.call, c ? x : g ? y : 0);
    same("molecule_call", "confirmed", r.confirmed, c ? 'C' : g ? 'G' : 0);
}

static void of_sum(int32_t sum)
{
    same("clamp_combined_error", "sum", gedrashiw_clamp_combined_error_to_fgbio_short(sum), (uint64_t)(sum < 0 ? 0 : sum > CAP ? CAP : sum));
}

/* The entries over a choice by its number. */
static void of_choice(uint8_t k)
{
    static const uint32_t flags[] = {4, 77, 141};
    struct gedrashiw_letters r = gedrashiw_bases(k);
    int wrong = k == 0 || k > 2;
    same("bases", "refused", r.refused, wrong ? 13 : 0);
    same("bases", "reference", r.reference, wrong ? 0 : (uint8_t)"CG"[k - 1]);
    same("bases", "unconverted", r.unconverted, wrong ? 0 : (uint8_t)"CG"[k - 1]);
    same("bases", "converted", r.converted, wrong ? 0 : (uint8_t)"TA"[k - 1]);
    number_is("is_enabled", gedrashiw_is_enabled(k), k > 2 ? 13 : 0, k != 0);
    number_is("written_flags", gedrashiw_written_flags(k), k > 2 ? 13 : 0, k > 2 ? 0 : flags[k]);
}

static const int32_t limits[] = {INT32_MIN, -40000, -1, 0, 1, 32766, 32767, 32768, 65535, 65536, 100000, INT32_MAX};
enum { LIMITS = sizeof limits / sizeof *limits };

static void try_numbers(void)
{
    of_number(chance() % 65536);
    int32_t sum = once_in(4) ? (int32_t)(chance() % 65536) - 16384 : limits[chance() % LIMITS];
    of_sum(once_in(4) ? (int32_t)(chance() << 8) : sum);
    of_choice(some_choice());
}

/* Each entry once, on a case by chance. */
static void one_round(void)
{
    try_numbers(); /* first, while a fuzzer's bytes last */
    try_thresholds();
    try_read_gate();
    try_consensus_gate();
    try_partition();
    try_strand_metrics();
    try_duplex_metrics();
    try_combined_depths();
    try_read_name();
    try_context();
    try_rate();
}

#ifndef FUZZED /* by tests/fuzz */
static void numbers_of_all_kinds(void)
{
    for (uint32_t n = 0; n < 65536; n++)
        of_number(n);
    for (int k = 0; k < LIMITS; k++)
        of_sum(limits[k]);
    for (int k = 0; k < 256; k++)
        of_choice((uint8_t)k);
}

int main(void)
{
    make_lent_blocks();
    numbers_of_all_kinds();
    same("rate_bits", "2 of 12", gedrashiw_rate_bits(2, 12), 0x3e2aaaab);
    for (int k = 0; k < 4000; k++)
        one_round();
    rows("validate_min_reads", "1 2 3 4");
    rows("min_yx_reads_for", "1 2 3 4");
    rows("allows_single_strand", "1 2 3 4");
    rows("has_minimum_number_of_reads", "1 2 3 4 9");
    rows("are_all_same_strand", "9");
    rows("duplex_consensus_has_minimum_reads", "1 2 3 4 7");
    rows("partition_records_by_strand", "5 6 9 10 12");
    rows("strand_metrics", "7 8");
    rows("calculate_error_rate", "7 8");
    rows("max_depth", "7");
    rows("min_depth", "7");
    rows("duplex_metrics", "7 8");
    rows("combined_depths", "7 12");
    rows("depth_range", "7");
    rows("write_consensus_read_name", "12");
    rows("cap_quality", "14");
    rows("is_enabled", "13");
    rows("written_flags", "13");
    all_nulls();
    printf("the typed entries over reads, gates, depths and metrics: %ld checks, %ld failures\n", checks, failures);
    return failures != 0;
}
#endif
