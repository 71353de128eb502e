/* Fuzzes the program duplexline: an input is its standard input, and all that it prints is held to a second implementation over
 * reference.h and molecule.h. The variable DUPLEXLINE may name another program than target/bin/duplexline. */
#define _GNU_SOURCE
#include "fuzz.h"
#include "molecule.h"

#include <errno.h>
#include <spawn.h>
#include <sys/wait.h>

extern char **environ;

/* ---- what must be printed */

static uint32_t largest_depth(const struct strand *s, size_t positions)
{
    uint32_t largest = 0;
    for (size_t i = 0; i < positions; i++) {
        uint32_t depth = number_at(s->of[DEPTHS].at + 2 * i, 2);
        largest = depth > largest ? depth : largest;
    }
    return largest;
}

/* The thresholds padded to three, or the number that refuses them. */
static uint8_t thresholds_of(struct array list, uint32_t *three)
{
    size_t count = list.len / 4;
    if (count == 0 || count > 3)
        return count == 0 ? 1 : 2;
    for (size_t k = 0; k < 3; k++)
        three[k] = number_at(list.at + 4 * (k < count ? k : count - 1), 4);
    return three[1] > three[0] ? 3 : three[2] > three[1] ? 4 : 0;
}

static int gate_keeps(const struct duplex_given *g, uint8_t kind, size_t positions, const uint32_t *three)
{
    uint32_t first = largest_depth(&g->strand[kind == B_ALONE ? 1 : 0], positions);
    uint32_t second = kind == BOTH ? largest_depth(&g->strand[1], positions) : 0;
    uint32_t more = first > second ? first : second, fewer = first > second ? second : first;
    return more + fewer >= three[0] && more >= three[1] && fewer >= three[2];
}

static void expected_text(const uint8_t *bytes, size_t len, struct text *t)
{
    static struct duplex_wanted w;
    struct molecule m;
    uint32_t three[3];
    uint8_t refused = !split_molecule(bytes, len, &m) || duplex_broken(&m.given) ? 13 : thresholds_of(m.thresholds, three);
    if (refused == 0) {
        duplex_expected(&m.given, &w);
        refused = w.refused;
    }
    t->len = 0;
    if (refused != 0) {
        say(t, "refused %u\n", refused);
        return;
    }
    say(t, HEADER);
    if (w.kind == NO_RECORD) {
        say(t, "none\n");
        return;
    }
    struct metrics_given metrics = metrics_of(&m.given, w.kind, w.positions, w.out[BASES_OUT], w.out[ERRORS_OUT]);
    struct metrics_wanted figures = metrics_expected(&metrics);
    const char *gate = gate_keeps(&m.given, w.kind, w.positions, three) ? "kept" : "below";
    say_record(t, w.kind, gate, w.positions, w.out[BASES_OUT], w.out[QUALS_OUT], w.out[ERRORS_OUT], figures.words);
}

/* ---- what is printed */

static int file_of(const char *name, const uint8_t *bytes, size_t len)
{
    int file = memfd_create(name, MFD_CLOEXEC);
    demand(file >= 0, "a file in memory");
    for (size_t at = 0; at < len;) {
        ssize_t wrote = write(file, bytes + at, len - at);
        demand(wrote > 0, "a written file");
        at += (size_t)wrote;
    }
    demand(lseek(file, 0, SEEK_SET) == 0, "a file's start");
    return file;
}

static void printed_text(const uint8_t *bytes, size_t len, struct text *t)
{
    static const char *program;
    if (program == NULL)
        program = getenv("DUPLEXLINE") != NULL ? getenv("DUPLEXLINE") : "target/bin/duplexline";
    int in = file_of("in", bytes, len), out = file_of("out", NULL, 0), status;
    char *words[] = {(char *)(uintptr_t)program, NULL};
    posix_spawn_file_actions_t actions;
    pid_t child;
    posix_spawn_file_actions_init(&actions);
    posix_spawn_file_actions_adddup2(&actions, in, 0);
    posix_spawn_file_actions_adddup2(&actions, out, 1);
    demand(posix_spawn(&child, program, &actions, NULL, words, environ) == 0, "the program duplexline");
    posix_spawn_file_actions_destroy(&actions);
    /* libFuzzer's clock interrupts the wait. */
    pid_t ended;
    do
        ended = waitpid(child, &status, 0);
    while (ended < 0 && errno == EINTR);
    demand(ended == child && WIFEXITED(status) && WEXITSTATUS(status) == 0, "exit status 0");
    ssize_t got = pread(out, t->at, sizeof t->at, 0);
    demand(got >= 0, "its output");
    t->len = (size_t)got;
    close(in);
    close(out);
}

int LLVMFuzzerTestOneInput(const uint8_t *bytes, size_t size);

int LLVMFuzzerTestOneInput(const uint8_t *bytes, size_t size)
{
    static struct text expected, printed;
    uint8_t *exact = exactly_copied(bytes, size);
    expected_text(exact, size, &expected);
    free(exact);
    printed_text(bytes, size, &printed);
    if (expected.len != printed.len || memcmp(expected.at, printed.at, expected.len) != 0) {
        fprintf(stderr, "printed:\n%.*s\nexpected:\n%.*s\n", (int)printed.len, printed.at, (int)expected.len, expected.at);
        abort();
    }
    return 0;
}

/* ---- mutations that keep the fields whole: one field's value is changed, and its length told anew */

size_t LLVMFuzzerMutate(uint8_t *bytes, size_t size, size_t most);
size_t LLVMFuzzerCustomMutator(uint8_t *bytes, size_t size, size_t most, unsigned int number);

/* Where the field that is chosen begins, or the end. */
static size_t chosen_field(const uint8_t *bytes, size_t size, unsigned int number)
{
    size_t starts[64], count = 0;
    for (size_t at = 0; size - at >= 3 && number_at(bytes + at + 1, 2) <= size - at - 3; at += 3 + number_at(bytes + at + 1, 2)) {
        starts[count++] = at;
        if (count == 64 || at + 3 + number_at(bytes + at + 1, 2) >= size)
            break;
    }
    return count == 0 ? size : starts[number % count];
}

size_t LLVMFuzzerCustomMutator(uint8_t *bytes, size_t size, size_t most, unsigned int number)
{
    static uint8_t value[65536];
    size_t at = chosen_field(bytes, size, number / 8);
    if (number % 8 == 0 || at == size)
        return LLVMFuzzerMutate(bytes, size, most);
    size_t len = number_at(bytes + at + 1, 2), tail = size - at - 3 - len;
    memcpy(value, bytes + at + 3, len);
    size_t changed_len = LLVMFuzzerMutate(value, len, number % 8 == 1 ? 65535 : len > 0 ? len : 1);
    /* Most often the length stays, as the strand's other arrays have it. */
    size_t told = number % 8 <= 2 ? changed_len : len;
    if (told > len && told - len > most - size)
        told = len;
    memmove(bytes + at + 3 + told, bytes + at + 3 + len, tail);
    memcpy(bytes + at + 3, value, told);
    put_number(bytes + at + 1, (uint32_t)told, 2);
    return at + 3 + told + tail;
}
