/* The numbers of docs/RATES.md: rates of some sums, and where neighbouring shares begin to share a number.
 * `bin/rates` builds and runs it; `tests/rates` works out what it must print, without the library. */
#include "gedrashiw.h"

#include <stdio.h>
#include <stdlib.h>

/* The most that one position can hold, and the most positions. */
#define DEEPEST 32767u
#define POSITIONS 1024u

/* Writes at position i as much of what is left as fits. Answers how much is left then. */
static uint32_t put(uint8_t *numbers, size_t i, uint32_t left)
{
    uint32_t n = left < DEEPEST ? left : DEEPEST;
    numbers[2 * i] = (uint8_t)n;
    numbers[2 * i + 1] = (uint8_t)(n >> 8);
    return left - n;
}

/* The bits of the cE of a record with these sums, as the library measures it: two strands whose depths add up to one sum, and
 * errors that add up to the other, over as many positions as that takes. The program asks the library for nothing else. */
static uint32_t rate(uint32_t errors, uint32_t depth)
{
    static const uint8_t none[2 * POSITIONS], bases[POSITIONS];
    uint8_t a[2 * POSITIONS], b[2 * POSITIONS], e[2 * POSITIONS], out[GEDRASHIW_METRICS_BYTES];
    size_t n = 0;
    for (; errors != 0 || depth != 0; n++) {
        if (n == POSITIONS) {
            fprintf(stderr, "no record has such sums\n");
            exit(1);
        }
        depth = put(a, n, depth);
        depth = put(b, n, depth);
        errors = put(e, n, errors);
    }
    uint8_t refused = gedrashiw_metrics(a, 2 * n, none, 2 * n, 1, b, 2 * n, none, 2 * n, bases, n, e, 2 * n, out, sizeof out);
    if (refused != GEDRASHIW_OK) {
        fprintf(stderr, "refused %d\n", refused);
        exit(1);
    }
    return out[32] | out[33] << 8 | out[34] << 16 | (uint32_t)out[35] << 24;
}

static void print_rate(uint32_t errors, uint32_t depth)
{
    printf("rate of %u %u: %08x\n", errors, depth, rate(errors, depth));
}

/* The shares just above 1 in m are k in m k - 1, for k = 2, 3, ..: each is the next one's neighbour, since no share of smaller sums
 * stands between them. Whether the k-th and the next have the same bits: */
static int alike(uint32_t m, uint32_t k)
{
    return rate(k, m * k - 1) == rate(k + 1, m * (k + 1) - 1);
}

/* The first two neighbours that share a number, and, in steps of a tenth from a given depth on, how many do. */
static void print_neighbours(uint32_t m, uint32_t from, uint32_t to)
{
    uint32_t k = 2;
    while (!alike(m, k))
        k++;
    printf("first above 1 in %u: %u/%u and %u/%u\n", m, k, m * k - 1, k + 1, m * (k + 1) - 1);
    for (uint32_t start = from / m, end; start * m < to; start = end) {
        uint32_t same = 0;
        end = start + start / 10 + 1;
        for (k = start; k < end; k++)
            same += alike(m, k);
        printf("above 1 in %u, depths from %u to %u: %u of %u share a number with the next\n", m, m * start - 1, m * (end - 1) - 1, same,
               end - start);
    }
}

int main(void)
{
    /* equal shares, one number */
    print_rate(2, 12);
    print_rate(1, 6);
    /* neighbours up to the limit, and past it */
    print_rate(2895, 2894);
    print_rate(2896, 2895);
    print_rate(2948, 2947);
    print_rate(2949, 2948);
    print_rate(374, 23935);
    print_rate(375, 23999);
    /* equal shares, two numbers */
    print_rate(97, 16777217);
    print_rate(1, 172961);
    print_neighbours(1, 1000, 50000);
    print_neighbours(64, 8000, 400000);
    print_neighbours(1024, 32000, 1600000);
    return 0;
}
