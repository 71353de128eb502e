/* Fuzzes gedrashiw_duplex_consensus and gedrashiw_preview_consensus, and gedrashiw_no_call_reason on the same strands. The head of an input:
 * what is present, annotated and listed, the patterns, the ceiling and the limit; the positions of each strand, the number of reads and the
 * bases of their longest; a byte of the run to change, and how; a change of each array's length, outputs counted from what is written; and
 * where arrays lie in the second call. */
#define _DEFAULT_SOURCE
#include "fuzz.h"

#define MOST 1100
enum { LONGEST_READ = 64 };

static struct block inputs[DUPLEX_INPUTS], outputs[OUTPUTS];

static void set_up(void)
{
    if (inputs[0].low != NULL)
        return;
    for (int k = 0; k < DUPLEX_INPUTS; k++)
        inputs[k] = block_new(k == 2 * ARRAYS ? MOST * (5 + LONGEST_READ) + 128 : 9 * MOST + 128);
    for (int k = 0; k < OUTPUTS; k++)
        outputs[k] = block_new(9 * MOST + 128);
}

/* Most often from 3 to 93. */
static uint8_t taken_ceiling(struct source *s)
{
    uint8_t n = take(s);
    return n < 250 ? n % (HIGHEST_CEILING + 3) : n;
}

/* Most often 1,024; else 256, near it, near a short strand's length, or any. */
static uint16_t taken_limit(struct source *s)
{
    uint8_t form = take(s), n = take(s);
    return (uint16_t)(form < 128   ? MOST_POSITIONS
                      : form < 152 ? MOST_SHOWN
                      : form < 176 ? MOST_SHOWN - 8 + n % 16
                      : form < 224 ? n % 44
                                   : form << 8 | n);
}

/* Most often below 40, else about 256 or 1,024. */
static size_t taken_positions(struct source *s)
{
    size_t n = take(s);
    return n < 216 ? n % 40 : n < 232 ? MOST_SHOWN - 8 + (n - 216) : MOST_POSITIONS - 12 + (n - 232);
}

/* A run of so many reads, then cut or made longer. */
static uint8_t *taken_run(struct source *s, size_t count, size_t longest, size_t place, uint8_t flip, uint8_t change, size_t *len)
{
    static uint8_t run[MOST * (5 + LONGEST_READ) + 128];
    size_t end = 0;
    for (size_t r = 0; r < count; r++) {
        size_t bases = take(s) % (longest + 1);
        run[end] = READ_TAG;
        put_number(run + end + 1, (uint32_t)bases + 2, 2);
        for (size_t i = 0; i < bases + 2; i++)
            run[end + 3 + i] = take(s);
        end += 5 + bases;
    }
    *len = changed(end, change);
    for (; end < *len; end++)
        run[end] = take(s);
    if (*len > 0)
        run[place % *len] ^= flip;
    return exactly_copied(run, *len);
}

/* The reasons for N, at many positions. */
static void reasons_are_the_reference_s(const struct duplex_given *g)
{
    for (int k = 0; k < ASKED; k++) {
        size_t position = asked_position(g, k);
        struct gedrashiw_reason r = reason_call(g, position), w = reason_expected(g, position);
        demand(r.refused == 0 || r.refused == 13 || r.refused == 7 || r.refused == 8, "0, 13, 7 or 8");
        demand(r.refused == w.refused && r.reason == w.reason, "the reference's reason");
    }
}

/* The call again, with its arrays between unreadable pages, and in one place a null pointer for each that is empty. */
static void again(const struct duplex_given *g, int place, struct gedrashiw_duplex_record r, uint8_t *const *out)
{
    struct duplex_given placed = *g;
    uint8_t *into[OUTPUTS];
    for (int k = 0; k < DUPLEX_INPUTS; k++) {
        struct array *in = duplex_input(&placed, k);
        block_input(&inputs[k], in->at, in->len, place);
        in->at = block_passed(&inputs[k], place);
    }
    for (int k = 0; k < OUTPUTS; k++) {
        block_output(&outputs[k], g->room[k], place);
        into[k] = block_passed(&outputs[k], place);
    }
    struct gedrashiw_duplex_record q = duplex_call(&placed, into);
    demand(q.refused == r.refused && q.kind == r.kind && q.positions == r.positions, "the same answer twice");
    reasons_are_the_reference_s(&placed);
    for (int k = 0; k < OUTPUTS; k++)
        demand(same_bytes(outputs[k].at, out[k], g->room[k]), "the same outputs twice");
    for (int k = 0; k < DUPLEX_INPUTS; k++)
        demand(block_as_noted(&inputs[k]), "inputs as they were");
}

/* What holds of an answer whatever the record's values are. */
static void plausible(const struct duplex_given *g, struct gedrashiw_duplex_record r, uint8_t *const *out)
{
    const struct strand *first = &g->strand[r.kind == B_ALONE ? 1 : 0];
    int wrote = r.refused == 0 && r.kind != NO_RECORD;
    demand(r.refused == 0 || (r.refused >= 12 && r.refused <= 14) || (r.refused >= 7 && r.refused <= 9) || r.refused == 19,
           "0, 7, 8, 9, 12, 13, 14 or 19");
    demand(r.refused == 13 || (r.refused == 14) == ceiling_outside(g->ceiling), "14 for a ceiling outside, but for 13");
    demand(r.refused != 19 || longest_array(g) > limit_of(g), "19 for an array over the limit");
    demand(r.kind <= BOTH && r.positions <= MOST_POSITIONS && r.positions <= limit_of(g), "a kind and a length");
    demand(r.refused == 0 || r.kind == NO_RECORD, "no record where refused");
    demand((r.kind == NO_RECORD) == (r.positions == 0), "positions where there is a record");
    for (int k = 0; k < OUTPUTS; k++) {
        int evidence = k == A_EVIDENCE_OUT ? first->annotated != 0 : r.kind == BOTH && g->strand[1].annotated;
        size_t written = wrote && (k < A_EVIDENCE_OUT || evidence) ? r.positions * out_width[k] : 0;
        demand(written <= g->room[k], "no output that is too short");
        demand(untouched(out[k], written, g->room[k]), "the rest of an output as it was");
        for (size_t i = 0; k >= A_EVIDENCE_OUT && i < written; i += 9)
            demand(out[k][i] <= 1, "marks 0 or 1");
        for (size_t i = 0; k == QUALS_OUT && r.kind == BOTH && i < written; i++)
            demand(out[k][i] >= 2 && out[k][i] <= g->ceiling, "qualities of two strands from 2 to the ceiling");
    }
}

/* An entry's answer and outputs, of the changed lengths: what holds of any, and the reference's. */
static void entry_is_the_reference_s(struct duplex_given g, const uint8_t *change, int where)
{
    static struct duplex_wanted w;
    uint8_t *out[OUTPUTS];
    for (int k = 0; k < OUTPUTS; k++)
        g.room[k] = MOST_POSITIONS * out_width[k];
    duplex_expected(&g, &w);
    for (int k = 0; k < OUTPUTS; k++) {
        g.room[k] = changed(w.written[k], change[k]);
        out[k] = exactly_patterned(g.room[k]);
    }
    struct gedrashiw_duplex_record r = duplex_call(&g, out);
    plausible(&g, r, out);
    again(&g, where, r, out);
    duplex_expected(&g, &w);
    demand(r.refused == w.refused && r.kind == w.kind && r.positions == w.positions, "the reference's answer");
    for (int k = 0; k < OUTPUTS; k++) {
        demand(same_bytes(out[k], w.out[k], w.written[k]), "the reference's outputs");
        free(out[k]);
    }
}

int LLVMFuzzerTestOneInput(const uint8_t *bytes, size_t size);

int LLVMFuzzerTestOneInput(const uint8_t *bytes, size_t size)
{
    set_up();
    struct source s = {bytes, size, 0, 0};
    struct duplex_given g = {0};
    uint8_t change[DUPLEX_INPUTS + OUTPUTS], *in[DUPLEX_INPUTS];
    size_t positions[2];
    for (int k = 0; k < 2; k++) {
        g.strand[k].present = take(&s);
        g.strand[k].annotated = take(&s);
        g.strand[k].pattern = take(&s);
        positions[k] = taken_positions(&s);
    }
    g.listed = take(&s);
    g.ceiling = taken_ceiling(&s);
    g.limit = taken_limit(&s);
    size_t count = take_count(&s, 12, MOST_READS), longest = take(&s) % (count > 12 ? 4 : LONGEST_READ), place = take_word(&s);
    uint8_t flip = take(&s);
    for (int k = 0; k < DUPLEX_INPUTS + OUTPUTS; k++)
        change[k] = take(&s);
    int where = take(&s) % PLACES;
    start_data(&s);
    for (int k = 0; k < 2 * ARRAYS; k++) {
        struct array *array = duplex_input(&g, k);
        array->len = changed(positions[k / ARRAYS] * width[k % ARRAYS], change[k]);
        array->at = in[k] = exactly_taken(&s, array->len);
    }
    g.reads.at = in[2 * ARRAYS] = taken_run(&s, count, longest, place, flip, change[2 * ARRAYS], &g.reads.len);
    entry_is_the_reference_s(g, change + DUPLEX_INPUTS, where);
    entry_is_the_reference_s(previewed(&g), change + DUPLEX_INPUTS, where);
    reasons_are_the_reference_s(&g);
    for (int k = 0; k < DUPLEX_INPUTS; k++)
        free(in[k]);
    return 0;
}
