/* Calls gedrashiw_metrics as a C program does. Every array lies against unreadable pages (guarded.h): once it ends where a page ends,
 * once it starts where one starts, and once a null pointer stands for each empty one. The whole output is compared, its bytes past the
 * written ones too. Expected values are those of the Rust in the fixed list, or written out here, or reference.h's. */
#define _DEFAULT_SOURCE
#include "guarded.h"
#include "reference.h"

static struct block blocks[METRICS_INPUTS], output;
static uint64_t nulls; /* which arrays were passed as a null pointer, a bit each */

/* The bytes of the case in hand; a struct metrics_given has parts of them. */
#define MOST 1100
static uint8_t store[METRICS_INPUTS][2 * MOST];

static const int wide[] = {A_DEPTHS, A_ERRORS, B_DEPTHS, B_ERRORS, RECORD_ERRORS};
enum { WIDE = sizeof wide / sizeof *wide };

static void set(int k, size_t i, uint32_t n)
{
    put_number(store[k] + 2 * i, n, 2);
}

/* Passes g with every array in its place, and compares the answer, all of the output, and the inputs. */
static void run_at(const char *name, const struct metrics_given *g, const struct metrics_wanted *w, int place)
{
    struct metrics_given placed = *g;
    for (int k = 0; k < METRICS_INPUTS; k++) {
        block_input(&blocks[k], g->in[k].at, g->in[k].len, place);
        placed.in[k].at = block_passed(&blocks[k], place);
        nulls |= (uint64_t)block_is_null(&blocks[k], place) << k;
    }
    block_output(&output, g->room, place);
    nulls |= (uint64_t)block_is_null(&output, place) << METRICS_INPUTS;
    for (int k = 0; w->refused == 0 && k < 10; k++)
        put_number(block_noted(&output) + 4 * k, w->words[k], 4);

    uint8_t answer = metrics_call(&placed, block_passed(&output, place));

    checks++;
    if (answer != w->refused) {
        printf("%s: answered %u, expected %u\n", name, answer, w->refused);
        failures++;
    }
    check(name, block_as_noted(&output), "the output is not as expected");
    if (answer == 0 && !block_as_noted(&output))
        for (int k = 0; k < 10; k++)
            printf("  %d: %08x, expected %08x\n", 4 * k, (unsigned)number_at(output.at + 4 * k, 4), (unsigned)w->words[k]);
    for (int k = 0; k < METRICS_INPUTS; k++)
        check(name, block_as_noted(&blocks[k]), "an input was written to");
}

static void run(const char *name, const struct metrics_given *g, const struct metrics_wanted *w)
{
    for (int place = 0; place < PLACES; place++)
        run_at(name, g, w, place);
}

/* ---- cases */

static struct metrics_given fresh(size_t a, size_t b, size_t record)
{
    struct metrics_given g = {{{0}}, 1, GEDRASHIW_METRICS_BYTES};
    memset(store, 0, sizeof store);
    for (int k = 0; k < METRICS_INPUTS; k++)
        g.in[k].at = store[k];
    g.in[A_DEPTHS].len = g.in[A_ERRORS].len = 2 * a;
    g.in[B_DEPTHS].len = g.in[B_ERRORS].len = 2 * b;
    g.in[RECORD_BASES].len = record;
    g.in[RECORD_ERRORS].len = 2 * record;
    return g;
}

static void fill(uint32_t most)
{
    for (size_t i = 0; i < MOST; i++) {
        for (int j = 0; j < WIDE; j++)
            set(wide[j], i, chance() % (most + 1));
        store[RECORD_BASES][i] = (uint8_t) "ACGTNn"[chance() % 6];
    }
}

static void expected(const char *name, const struct metrics_given *g)
{
    struct metrics_wanted w = metrics_expected(g);
    run(name, g, &w);
}

static void answers(const char *name, const struct metrics_given *g, uint8_t answer)
{
    struct metrics_wanted w = metrics_expected(g);
    check(name, w.refused == answer, "the two expectations differ");
    w.refused = answer;
    run(name, g, &w);
}

static void worked_examples(void)
{
    struct metrics_given g = fresh(4, 4, 4);
    for (size_t i = 0; i < 4; i++) {
        set(A_DEPTHS, i, 2);
        set(B_DEPTHS, i, 1);
        set(RECORD_ERRORS, i, i / 2);
    }
    memcpy(store[RECORD_BASES], "ACNN", 4);
    struct metrics_wanted both = {0, {2, 2, 0, 1, 1, 0, 3, 3, 0x3e2aaaab, 2}};
    run("document 01", &g, &both);
    g.second = 255;
    run("second is 255", &g, &both);
    g.room = 57;
    run("more room", &g, &both);

    g.second = 0;
    struct metrics_wanted one = {0, {2, 2, 0, 0, 0, 0, 2, 2, 0x3e800000, 2}}; /* 2 errors over 8 */
    run("no second strand", &g, &one);
    g.in[B_DEPTHS].len = 7;
    run("its bytes are not looked at", &g, &one);
    g.in[B_DEPTHS].len = 2 * 1025;
    g.in[B_ERRORS].len = 1;
    run("nor its lengths", &g, &one);

    g = fresh(1, 0, 1);
    set(A_DEPTHS, 0, 40000);
    set(A_ERRORS, 0, 0x0100); /* 256, not 1 */
    store[RECORD_BASES][0] = 'n';
    struct metrics_wanted capped = {0, {32767, 32767, 0x3c000100, 0, 0, 0, 32767, 32767, 0, 0}};
    run("capped", &g, &capped);

    g = fresh(5, 2, 4); /* N and n where there is depth and where there is none; a strand longer than the record, and one shorter */
    set(A_DEPTHS, 2, 1);
    set(A_DEPTHS, 4, 1);
    set(B_DEPTHS, 1, 1);
    memcpy(store[RECORD_BASES], "NNNN", 4);
    struct metrics_wanted padded = {0, {1, 0, 0, 1, 0, 0, 1, 0, 0, 2}};
    run("padded ends", &g, &padded);
    g.second = 0;
    struct metrics_wanted first_alone = {0, {1, 0, 0, 0, 0, 0, 1, 0, 0, 1}};
    run("padded ends, no second strand", &g, &first_alone);
    memcpy(store[RECORD_BASES], "NNnN", 4);
    first_alone.words[9] = 0;
    run("padded ends, n", &g, &first_alone);

    g = fresh(0, 0, 0);
    struct metrics_wanted none = {0, {0}};
    run("no positions", &g, &none);
    g.second = 0;
    run("no positions, no second strand", &g, &none);
}

static void computed(void)
{
    static const size_t sizes[] = {0, 1, 2, 3, 17, 1023, 1024};
    static const uint32_t mosts[] = {1, 9, 300, 65535};
    for (size_t i = 0; i < 7; i++)
        for (size_t j = 0; j < 7; j++)
            for (size_t k = 0; k < 4; k++) {
                struct metrics_given g = fresh(sizes[i], sizes[j], sizes[(i + j + k) % 7]);
                fill(mosts[k]);
                g.room += chance() % 9;
                expected("computed", &g);
                g.second = 0;
                expected("computed, no second strand", &g);
            }
}

static void refusals(void)
{
    static const char *const names[] = {"a_depths", "a_errors", "b_depths", "b_errors", "bases", "errors"};
    struct metrics_given g = fresh(1024, 1024, 1024);
    fill(65535);
    answers("1,024 positions", &g, 0);
    for (int k = 0; k < METRICS_INPUTS; k++) {
        size_t step = k == RECORD_BASES ? 1 : 2;
        g = fresh(1024, 1024, 1024);
        g.in[k].len += step;
        answers(names[k], &g, 7);
        g = fresh(5, 5, 5);
        g.in[k].len += step;
        answers(names[k], &g, 8);
        g = fresh(5, 5, 5);
        if (k == RECORD_BASES)
            continue;
        g.in[k].len += 1;
        answers(names[k], &g, 13);
        g.second = 0;
        answers(names[k], &g, k == B_DEPTHS || k == B_ERRORS ? 0 : 13);
        g = fresh(5, 5, 5);
        g.in[k].len -= 1;
        answers(names[k], &g, 13);
    }
    for (size_t n = 0; n <= 40; n++) {
        g = fresh(3, 3, 3);
        g.room = n;
        answers("a short output", &g, n < 40 ? 12 : 0);
    }
}

/* Faults at once: the first in the order 13, 7, 8, 12 is answered. */
static void several(void)
{
    for (int faults = 0; faults < 16; faults++) {
        struct metrics_given g = fresh(4, 4, 4);
        if (faults & 1)
            g.in[RECORD_ERRORS].len += 1;
        if (faults & 2)
            g.in[A_DEPTHS].len = g.in[A_ERRORS].len = 2 * 1025;
        if (faults & 4)
            g.in[B_ERRORS].len = 6;
        if (faults & 8)
            g.room = 39;
        answers("several faults", &g, faults & 1 ? 13 : faults & 2 ? 7 : faults & 4 ? 8 : faults & 8 ? 12 : 0);
    }
}

/* ---- the Rust's answers: the vectors of tests/replay (oracle/README.md) and the lines that the Rust side wrote for them */

enum { METRICS_CALL = 29 };

/* The fields of a vector of the metrics, in the order of the call: depths, errors, second, depths, errors, bases, errors. */
static struct metrics_given from_vector(const uint8_t *body)
{
    static const int field[] = {A_DEPTHS, A_ERRORS, -1, B_DEPTHS, B_ERRORS, RECORD_BASES, RECORD_ERRORS};
    struct metrics_given g = fresh(0, 0, 0);
    for (int k = 0; k < 7; k++) {
        const uint8_t *from = body + number_at(body + 8 * k, 4);
        size_t count = number_at(body + 8 * k + 4, 2);
        if (count > MOST)
            exit(2);
        if (field[k] == -1) {
            g.second = from[0];
            continue;
        }
        g.in[field[k]].len = field[k] == RECORD_BASES ? count : 2 * count;
        memcpy(store[field[k]], from, g.in[field[k]].len);
    }
    return g;
}

static struct metrics_wanted from_line(const char *line)
{
    struct metrics_wanted w = {0, {0}};
    unsigned refused;
    if (sscanf(line, "29 refused %u", &refused) == 1) {
        w.refused = (uint8_t)refused;
        return w;
    }
    uint32_t *n = w.words;
    if (sscanf(line, "29 %u %u %u %u %u %u %u %u %u %u", n, n + 1, n + 2, n + 3, n + 4, n + 5, n + 6, n + 7, n + 8, n + 9) != 10)
        exit(2);
    return w;
}

static void fixed_list(const char *vectors, const char *lines)
{
    static uint8_t body[1 << 18];
    static char line[1 << 18];
    uint8_t head[6];
    int compared = 0;
    FILE *v = fopen(vectors, "rb"), *l = fopen(lines, "r");
    if (v == NULL || l == NULL) {
        fail(vectors, "cannot be read");
        return;
    }
    while (fread(head, 1, 6, v) == 6) {
        size_t size = number_at(head + 2, 4);
        if (size > sizeof body || fread(body, 1, size, v) != size || fgets(line, sizeof line, l) == NULL)
            exit(2);
        if (head[0] != METRICS_CALL)
            continue;
        struct metrics_given g = from_vector(body);
        struct metrics_wanted w = from_line(line);
        run("the fixed list", &g, &w);
        compared++;
    }
    check(vectors, compared > 0, "has no vector of the metrics");
    fclose(v);
    fclose(l);
}

/* With the files of vectors and lines as words. */
int main(int words, char **word)
{
    for (int k = 0; k < METRICS_INPUTS; k++)
        blocks[k] = block_new(2 * MOST);
    output = block_new(2 * MOST);
    if (words == 3)
        fixed_list(word[1], word[2]);
    else
        fail("usage", "metrics_host VECTORS LINES");
    worked_examples();
    computed();
    refusals();
    several();
    nulls_were_passed("gedrashiw_metrics", METRICS_INPUTS + 1, nulls);
    tell_nulls(METRICS_INPUTS + 1);
    printf("gedrashiw_metrics: %ld checks, %ld failures\n", checks, failures);
    return failures == 0 ? 0 : 1;
}
