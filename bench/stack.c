/* How many bytes of stack the entry points take that take most: each is called on a stack of its own, filled with a pattern, of which the lowest
 * changed byte is looked for; what a call of an empty function takes there is taken off. Strands of 1,024 positions, both annotated, and 20
 * reads; in a preview of 256, and of 1,024, which it refuses. The exit status is 1 where one takes more than the header says. */
#include "gedrashiw.h"
#include <stdio.h>
#include <stdlib.h>
#include <string.h>
#include <ucontext.h>

enum { N = 1024, SHOWN = GEDRASHIW_PREVIEW_POSITIONS, READS = 20, STACK = 1 << 20, PATTERN = 0xa5 };

static const struct gedrashiw_settings settings = {GEDRASHIW_MAX_CEILING, GEDRASHIW_MAX_POSITIONS};

static uint8_t bases[2][N], quals[2][N], marks[2][N], depth_bytes[2][2 * N], error_bytes[2][2 * N], evidence[2][9 * N], run[READS * (5 + N)];
static uint16_t depths[2][N], errors[2][N];
static uint32_t counts[2][2][N];
static struct gedrashiw_source_read reads[READS];
static uint8_t out[8][9 * N], reads_bytes[READS * N];
static uint8_t count_bytes[6][2 * N];
static uint16_t out16[7][N];
static uint32_t out32[4][N];

static void nothing(void) {}

static void metrics(void) {
    gedrashiw_metrics(depth_bytes[0], 2 * N, error_bytes[0], 2 * N, 1, depth_bytes[1], 2 * N, error_bytes[1], 2 * N, bases[0], N, error_bytes[0],
                      2 * N, out[0], 40);
}

static void duplex_metrics(void) {
    gedrashiw_duplex_metrics(depths[0], N, errors[0], N, 1, depths[1], N, errors[1], N, bases[0], N, errors[0], N);
}

static void consensus(void) {
    struct gedrashiw_told_encoded_molecule molecule = {{1, 1, 0}, {1, 1, 1}, 1, settings};
    gedrashiw_duplex_consensus(molecule, bases[0], N, quals[0], N, depth_bytes[0], 2 * N, error_bytes[0], 2 * N, evidence[0], 9 * N, bases[1], N,
                               quals[1], N, depth_bytes[1], 2 * N, error_bytes[1], 2 * N, evidence[1], 9 * N, run, sizeof run, out[0], N, out[1],
                               N, out[2], 2 * N, out[3], 9 * N, out[4], 9 * N);
}

static struct gedrashiw_duplex_record preview_of(size_t n) {
    struct gedrashiw_told_encoded_molecule molecule = {{1, 1, 0}, {1, 1, 1}, 1, settings};
    return gedrashiw_preview_consensus(molecule, bases[0], n, quals[0], n, depth_bytes[0], 2 * n, error_bytes[0], 2 * n, evidence[0], 9 * n,
                                       bases[1], n, quals[1], n, depth_bytes[1], 2 * n, error_bytes[1], 2 * n, evidence[1], 9 * n, run,
                                       sizeof run, out[0], SHOWN, out[1], SHOWN, out[2], 2 * SHOWN, out[3], 9 * SHOWN, out[4], 9 * SHOWN);
}

static void preview(void) {
    if (preview_of(SHOWN).positions != SHOWN) exit(2);
}

static void preview_refused(void) {
    if (preview_of(SHOWN + 1).refused != GEDRASHIW_OVER_LIMIT || preview_of(N).refused != GEDRASHIW_OVER_LIMIT) exit(2);
}

static void consensus_typed(void) {
    struct gedrashiw_told_molecule molecule = {{1, 1}, {1, 2}, 1, settings};
    gedrashiw_duplex_consensus_typed(molecule, bases[0], N, quals[0], N, depths[0], N, errors[0], N, marks[0], N, counts[0][0], N, counts[0][1], N,
                                     bases[1], N, quals[1], N, depths[1], N, errors[1], N, marks[1], N, counts[1][0], N, counts[1][1], N, reads,
                                     READS, reads_bytes, sizeof reads_bytes, out[0], N, out[1], N, out16[0], N, out[2], N, out32[0], N, out32[1], N,
                                     out[3], N, out32[2], N, out32[3], N);
}

static void reason(void) {
    gedrashiw_no_call_reason(1, 1, 0, bases[0], N, quals[0], N, depth_bytes[0], 2 * N, error_bytes[0], 2 * N, evidence[0], 9 * N, 1, 1, 1, bases[1],
                             N, quals[1], N, depth_bytes[1], 2 * N, error_bytes[1], 2 * N, evidence[1], 9 * N, N - 1);
}

static void reason_typed(void) {
    gedrashiw_no_call_reason_typed(1, bases[0], N, quals[0], N, depths[0], N, errors[0], N, 1, marks[0], N, counts[0][0], N, counts[0][1], N, 1,
                                   bases[1], N, quals[1], N, depths[1], N, errors[1], N, 2, marks[1], N, counts[1][0], N, counts[1][1], N, N - 1);
}

static void tags(void) {
    gedrashiw_duplex_methylation_tags(bases[0], N, 1, marks[0], N, counts[0][0], N, counts[0][1], N, 2, marks[1], N, counts[1][0], N, counts[1][1],
                                      N, 1, out[0], N, out[1], 9 * N, out[2], 9 * N, out[3], 9 * N, out[4], 9 * N, out16[0], N, out16[1], N,
                                      out16[2], N, out16[3], N, out16[4], N, out16[5], N);
}

static void tags_of_bytes(void) {
    gedrashiw_methylation_tags(bases[0], N, 1, 0, evidence[0], 9 * N, 1, 1, evidence[1], 9 * N, 1, out[0], N, out[1], 9 * N, out[2], 9 * N, out[3],
                               9 * N, out[4], 9 * N, count_bytes[0], 2 * N, count_bytes[1], 2 * N, count_bytes[2], 2 * N, count_bytes[3], 2 * N,
                               count_bytes[4], 2 * N, count_bytes[5], 2 * N);
}

static size_t taken(void (*call)(void)) {
    static ucontext_t here, there;
    unsigned char *stack = malloc(STACK);
    if (!stack || getcontext(&there)) exit(2);
    memset(stack, PATTERN, STACK);
    there.uc_stack.ss_sp = stack;
    there.uc_stack.ss_size = STACK;
    there.uc_link = &here;
    makecontext(&there, call, 0);
    if (swapcontext(&here, &there)) exit(2);
    size_t low = 0;
    while (low < STACK && stack[low] == PATTERN) low++;
    free(stack);
    return STACK - low;
}

int main(void) {
    for (int s = 0; s < 2; s++)
        for (int i = 0; i < N; i++) {
            bases[s][i] = "CTGA"[(i + s) % 4];
            quals[s][i] = 30;
            depths[s][i] = depth_bytes[s][2 * i] = 3;
            marks[s][i] = evidence[s][9 * i] = 1;
            counts[s][0][i] = evidence[s][9 * i + 1] = 2;
        }
    for (int r = 0; r < READS; r++) {
        reads[r] = (struct gedrashiw_source_read){(uint16_t)(r % 2 ? 0x81 : 0x41), (size_t)r * N, N};
        uint8_t *read = run + r * (5 + N);
        read[0] = 0x30;
        read[1] = (N + 2) % 256;
        read[2] = (N + 2) / 256;
        read[3] = r % 2 ? 0x81 : 0x41;
        memcpy(read + 5, bases[r % 2], N);
        memcpy(reads_bytes + r * N, bases[r % 2], N);
    }
    static const struct {
        const char *name;
        void (*call)(void);
        int previews;
    } calls[] = {{"gedrashiw_metrics", metrics, 0},
                 {"gedrashiw_duplex_metrics", duplex_metrics, 0},
                 {"gedrashiw_duplex_consensus", consensus, 0},
                 {"gedrashiw_preview_consensus", preview, 1},
                 {"gedrashiw_preview_consensus, refused", preview_refused, 1},
                 {"gedrashiw_duplex_consensus_typed", consensus_typed, 0},
                 {"gedrashiw_no_call_reason", reason, 0},
                 {"gedrashiw_no_call_reason_typed", reason_typed, 0},
                 {"gedrashiw_duplex_methylation_tags", tags, 0},
                 {"gedrashiw_methylation_tags", tags_of_bytes, 0}};
    taken(nothing);
    size_t base = taken(nothing);
    size_t most[2] = {0, 0};
    for (size_t i = 0; i < sizeof calls / sizeof *calls; i++) {
        size_t bytes = taken(calls[i].call) - base, *so_far = &most[calls[i].previews];
        printf("stack of %-36s %6zu bytes\n", calls[i].name, bytes);
        *so_far = bytes > *so_far ? bytes : *so_far;
    }
    printf("the most is %zu bytes, and the header allows %d; of a preview %zu, and %d\n", most[0], GEDRASHIW_STACK_BYTES, most[1],
           GEDRASHIW_PREVIEW_STACK_BYTES);
    return most[0] > GEDRASHIW_STACK_BYTES || most[1] > GEDRASHIW_PREVIEW_STACK_BYTES;
}
