/* Fuzzes gedrashiw_metrics. The head of an input: whether there is a second strand, the positions of the strands and of the record,
 * the output's length, a change of each array's length, and where arrays lie in the second call. */
#define _DEFAULT_SOURCE
#include "fuzz.h"

#define MOST 1100

static struct block blocks[METRICS_INPUTS], output;

static void set_up(void)
{
    if (output.low != NULL)
        return;
    for (int k = 0; k < METRICS_INPUTS; k++)
        blocks[k] = block_new(2 * MOST + 128);
    output = block_new(256);
}

/* The call again, with its arrays between unreadable pages, and in one place a null pointer for each that is empty. */
static void again(const struct metrics_given *g, int place, uint8_t answer, const uint8_t *out)
{
    struct metrics_given placed = *g;
    for (int k = 0; k < METRICS_INPUTS; k++) {
        block_input(&blocks[k], g->in[k].at, g->in[k].len, place);
        placed.in[k].at = block_passed(&blocks[k], place);
    }
    block_output(&output, g->room, place);
    demand(metrics_call(&placed, block_passed(&output, place)) == answer, "the same answer twice");
    demand(same_bytes(output.at, out, g->room), "the same output twice");
    for (int k = 0; k < METRICS_INPUTS; k++)
        demand(block_as_noted(&blocks[k]), "inputs as they were");
}

int LLVMFuzzerTestOneInput(const uint8_t *bytes, size_t size);

int LLVMFuzzerTestOneInput(const uint8_t *bytes, size_t size)
{
    set_up();
    struct source s = {bytes, size, 0, 0};
    struct metrics_given g = {.second = take(&s)};
    size_t a = take_count(&s, 64, MOST_POSITIONS), b = take_count(&s, 64, MOST_POSITIONS);
    size_t record = take_count(&s, 64, MOST_POSITIONS);
    const size_t positions[METRICS_INPUTS] = {a, a, b, b, record, record};
    g.room = take(&s);
    for (int k = 0; k < METRICS_INPUTS; k++)
        g.in[k].len = changed(positions[k] * (k == RECORD_BASES ? 1 : 2), take(&s));
    int place = take(&s) % PLACES;
    start_data(&s);
    uint8_t *in[METRICS_INPUTS], *out = exactly_patterned(g.room);
    for (int k = 0; k < METRICS_INPUTS; k++)
        g.in[k].at = in[k] = exactly_taken(&s, g.in[k].len);

    uint8_t answer = metrics_call(&g, out);
    demand(answer == 0 || answer == 13 || answer == 7 || answer == 8 || answer == 12, "0, 13, 7, 8 or 12");
    demand(untouched(out, answer == 0 ? GEDRASHIW_METRICS_BYTES : 0, g.room), "the rest of the output as it was");
    again(&g, place, answer, out);

    struct metrics_wanted w = metrics_expected(&g);
    demand(answer == w.refused, "the reference's answer");
    for (int k = 0; answer == 0 && k < 10; k++)
        demand(number_at(out + 4 * k, 4) == w.words[k], "the reference's numbers");
    for (int k = 0; k < METRICS_INPUTS; k++)
        free(in[k]);
    free(out);
    return 0;
}
