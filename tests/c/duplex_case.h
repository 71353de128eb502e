/* A case of the combination's entry: its bytes, what is expected, the call and the comparison; the same by the preview's entry, with outputs
 * of no more than 256 places; and of the same strands the reasons for N, by their entry, at many positions. Every array lies against unreadable
 * pages (guarded.h): once it ends where a page ends, once it starts where one starts, and once a null pointer stands for each empty
 * one. After every case each output is compared whole, its places past the record too, and each input with what it was. */
#ifndef DUPLEX_CASE_H
#define DUPLEX_CASE_H

#include "guarded.h"
#include "reference.h"

static struct block inputs[DUPLEX_INPUTS], outputs[OUTPUTS];
static uint64_t nulls[PRODUCTS]; /* which inputs and outputs were passed as a null pointer, a bit each */

static const char *const output_names[OUTPUTS] = {"bases_out", "quals_out", "errors_out", "a_evidence_out", "b_evidence_out"};

/* How often each reason was expected; the reason 0 is a refusal's. */
static long reasons[GEDRASHIW_REASON_LOW_CONFIRMING + 1];

static void ask(const char *name, const struct duplex_given *placed, size_t position)
{
    struct gedrashiw_reason w = reason_expected(placed, position), r = reason_call(placed, position);
    reasons[w.reason]++;
    checks++;
    if (r.refused != w.refused || r.reason != w.reason) {
        failures++;
        printf("%s: the reason at %zu: refused %u, reason %u; expected %u, %u\n", name, position, r.refused, r.reason, w.refused, w.reason);
    }
}

/* Passes g to its entry with every array in its place; compares the answer, all of the outputs, and the inputs. */
static void run_at(const char *name, const struct duplex_given *g, const struct duplex_wanted *w, int place)
{
    static const char *const products[] = {"", ", in a preview"};
    struct duplex_given placed = *g;
    uint8_t *out[OUTPUTS];
    for (int k = 0; k < DUPLEX_INPUTS; k++) {
        struct array *in = duplex_input(&placed, k);
        block_input(&inputs[k], in->at, in->len, place);
        in->at = block_passed(&inputs[k], place);
        nulls[g->product] |= (uint64_t)block_is_null(&inputs[k], place) << k;
    }
    for (int k = 0; k < OUTPUTS; k++) {
        block_output(&outputs[k], g->room[k], place);
        memcpy(block_noted(&outputs[k]), w->out[k], w->written[k]);
        out[k] = block_passed(&outputs[k], place);
        nulls[g->product] |= (uint64_t)block_is_null(&outputs[k], place) << (DUPLEX_INPUTS + k);
    }

    struct gedrashiw_duplex_record r = duplex_call(&placed, out);
    for (int k = 0; g->product == BATCH && k < ASKED; k++)
        ask(name, &placed, asked_position(&placed, k));

    checks++;
    if (r.refused != w->refused || r.kind != w->kind || r.positions != w->positions) {
        printf("%s%s: refused %u, kind %u, %zu positions; expected %u, %u, %zu\n", name, products[g->product], r.refused, r.kind, r.positions,
               w->refused, w->kind, w->positions);
        failures++;
    }
    for (int k = 0; k < OUTPUTS; k++) {
        check(name, block_as_noted(&outputs[k]), output_names[k]);
        for (size_t i = 0; i < g->room[k] && !block_as_noted(&outputs[k]); i++)
            if (out[k][i] != block_noted(&outputs[k])[i]) {
                printf("  byte %zu: %u, expected %u\n", i, out[k][i], block_noted(&outputs[k])[i]);
                break;
            }
    }
    for (int k = 0; k < DUPLEX_INPUTS; k++)
        check(name, block_as_noted(&inputs[k]), "an input was written to");
}

/* How often each answer of an entry was expected: kinds of records, and refusals. Of all cases since the start: how many both entries must
 * answer alike, and how many the preview alone refuses. */
static long kinds[PRODUCTS][4], refusals[PRODUCTS][GEDRASHIW_OVER_LIMIT + 1], alike, refused_in_a_preview;

static void tally(int product, const struct duplex_wanted *w)
{
    if (w->refused != 0)
        refusals[product][w->refused]++;
    else
        kinds[product][w->kind]++;
}

static int same_wanted(const struct duplex_wanted *one, const struct duplex_wanted *two)
{
    int same = one->refused == two->refused && one->kind == two->kind && one->positions == two->positions;
    for (int k = 0; k < OUTPUTS; k++)
        same = same && one->written[k] == two->written[k] && memcmp(one->out[k], two->out[k], one->written[k]) == 0;
    return same;
}

/* Both entries in each place; the outputs stay as the second has left them. Of strands within 256 positions the preview must give what the other gives. */
static void run(const char *name, const struct duplex_given *g, const struct duplex_wanted *w)
{
    static struct duplex_wanted of_preview;
    struct duplex_given shown = previewed(g);
    duplex_expected(&shown, &of_preview);
    tally(PREVIEW, &of_preview);
    if (longest_array(g) <= MOST_SHOWN) {
        check(name, same_wanted(&of_preview, w), "a preview of strands within 256 positions would differ");
        alike++;
    }
    refused_in_a_preview += of_preview.refused == 19 && w->refused != 19;
    for (int place = 0; place < PLACES; place++) {
        run_at(name, &shown, &of_preview, place);
        run_at(name, g, w, place);
    }
}

static void start_tally(void)
{
    memset(kinds, 0, sizeof kinds);
    memset(refusals, 0, sizeof refusals);
    memset(reasons, 0, sizeof reasons);
    alike = refused_in_a_preview = 0;
}

static void all_reasons_occurred(const char *name)
{
    for (int k = 0; k <= GEDRASHIW_REASON_LOW_CONFIRMING; k++)
        check(name, reasons[k] > 0, "a reason did not occur");
}

/* Of the cases since, none is by chance left out. */
static void all_occurred(const char *name, int product, const int *rows, int count)
{
    for (int k = 0; k < 4; k++)
        check(name, kinds[product][k] > 0, "a kind of record did not occur");
    for (int k = 0; k < count; k++)
        check(name, refusals[product][rows[k]] > 0, "a refusal did not occur");
}

static struct duplex_wanted reckoned; /* by reference.h */

static void expected(const char *name, const struct duplex_given *g)
{
    duplex_expected(g, &reckoned);
    tally(BATCH, &reckoned);
    run(name, g, &reckoned);
}

/* What is written out here must also be what reference.h says. */
static void gives(const char *name, const struct duplex_given *g, const struct duplex_wanted *w)
{
    duplex_expected(g, &reckoned);
    check(name, same_wanted(&reckoned, w), "the two expectations differ");
    run(name, g, w);
}

static void refuses(const char *name, const struct duplex_given *g, uint8_t number)
{
    static struct duplex_wanted w;
    memset(&w, 0, sizeof w);
    w.refused = number;
    gives(name, g, &w);
}

/* Not refused: reference.h says what is written. */
static void takes(const char *name, const struct duplex_given *g)
{
    duplex_expected(g, &reckoned);
    check(name, reckoned.refused == 0, "refused, as reference.h has it");
    run(name, g, &reckoned);
}

/* ---- a case: its bytes are here, and a struct duplex_given has parts of them */

#define MOST 1100
enum { MOST_READ_BYTES = 1 << 21 };
static uint8_t store[2 * ARRAYS][9 * MOST], reads[MOST_READ_BYTES];

static void make_blocks(void)
{
    for (int k = 0; k < DUPLEX_INPUTS; k++)
        inputs[k] = block_new(k == 2 * ARRAYS ? MOST_READ_BYTES : 9 * MOST);
    for (int k = 0; k < OUTPUTS; k++)
        outputs[k] = block_new(9 * MOST);
}

static uint8_t *array_of(int strand, int k)
{
    return store[strand * ARRAYS + k];
}

static void set_room(struct duplex_given *g, size_t positions)
{
    for (int k = 0; k < OUTPUTS; k++)
        g->room[k] = positions * out_width[k];
}

/* Two strands of so many positions: A, quality 30, depth 1, no errors, no annotation; the ceiling 93 and the limit 1,024. */
static struct duplex_given fresh(size_t a, size_t b)
{
    struct duplex_given g = {BATCH, {{0}}, 0, HIGHEST_CEILING, MOST_POSITIONS, {reads, 0}, {0}};
    memset(store, 0, sizeof store);
    for (int s = 0; s < 2; s++) {
        size_t positions = s == 0 ? a : b;
        g.strand[s].present = 1;
        for (int k = 0; k < ARRAYS; k++) {
            g.strand[s].of[k].at = array_of(s, k);
            g.strand[s].of[k].len = k == EVIDENCE ? 0 : positions * width[k];
        }
        memset(array_of(s, BASES), 'A', MOST);
        memset(array_of(s, QUALS), 30, MOST);
        for (size_t i = 0; i < MOST; i++)
            put_number(array_of(s, DEPTHS) + 2 * i, 1, 2);
    }
    set_room(&g, a > b ? a : b);
    return g;
}

static void annotate(struct duplex_given *g, int s, uint8_t pattern)
{
    g->strand[s].annotated = 1;
    g->strand[s].pattern = pattern;
    g->strand[s].of[EVIDENCE].len = 9 * g->strand[s].of[BASES].len;
}

static void set_base(int s, size_t i, char base, uint8_t qual)
{
    array_of(s, BASES)[i] = (uint8_t)base;
    array_of(s, QUALS)[i] = qual;
}

static void set_counts(int s, size_t i, uint32_t depth, uint32_t errors)
{
    put_number(array_of(s, DEPTHS) + 2 * i, depth, 2);
    put_number(array_of(s, ERRORS) + 2 * i, errors, 2);
}

static void put_position(uint8_t *at, uint8_t mark, uint32_t unconverted, uint32_t converted)
{
    at[0] = mark;
    put_number(at + 1, unconverted, 4);
    put_number(at + 5, converted, 4);
}

static void set_evidence(int s, size_t i, uint8_t mark, uint32_t unconverted, uint32_t converted)
{
    put_position(array_of(s, EVIDENCE) + 9 * i, mark, unconverted, converted);
}

/* A read more, its bases by a text or, where there is none, all A. */
static void add_read(struct duplex_given *g, uint32_t flags, const char *bases, size_t len)
{
    uint8_t *at = reads + g->reads.len;
    if (g->reads.len + 5 + len > MOST_READ_BYTES || len + 2 > 65535)
        exit(2);
    at[0] = READ_TAG;
    put_number(at + 1, (uint32_t)len + 2, 2);
    put_number(at + 3, flags, 2);
    if (bases == NULL)
        memset(at + 5, 'A', len);
    else
        memcpy(at + 5, bases, len);
    g->reads.len += 5 + len;
    g->listed = 1;
}

static void read_of(struct duplex_given *g, uint32_t flags, const char *bases)
{
    add_read(g, flags, bases, strlen(bases));
}

/* ---- what is expected, written out */

static struct duplex_wanted wanted;

static struct duplex_wanted *want(uint8_t kind, const char *bases, const uint8_t *quals, const uint32_t *errors)
{
    memset(&wanted, 0, sizeof wanted);
    wanted.kind = kind;
    wanted.positions = strlen(bases);
    for (int k = 0; k < A_EVIDENCE_OUT; k++)
        wanted.written[k] = wanted.positions * out_width[k];
    memcpy(wanted.out[BASES_OUT], bases, wanted.positions);
    memcpy(wanted.out[QUALS_OUT], quals, wanted.positions);
    for (size_t i = 0; i < wanted.positions; i++)
        put_number(wanted.out[ERRORS_OUT] + 2 * i, errors[i], 2);
    return &wanted;
}

/* Evidence is written, all of it clear but for what want_kept says. */
static void want_evidence(int k)
{
    wanted.written[k] = 9 * wanted.positions;
}

static void want_kept(int k, size_t i, uint32_t unconverted, uint32_t converted)
{
    put_position(wanted.out[k] + 9 * i, 1, unconverted, converted);
}

#endif
