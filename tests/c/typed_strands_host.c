/* Calls the typed entries over strands, the combination's first, as a C program does, on cases by chance and at the limits. What is
 * expected is document 01's, and of reasons for N document 02's, by reference.h, position by position; which rows apply to arrays of numbers is worked out here. Arrays lie
 * as lists.h has them. */
#define _DEFAULT_SOURCE
#include "lists.h"
#include "reference.h"

/* A strand's lists, in the order in which every entry takes them; entries that take numbers one by one have that of its annotation before
 * the evidence. */
enum { T_BASES, T_QUALS, T_DEPTHS, T_ERRORS, T_MARKS, T_UNCONVERTED, T_CONVERTED, T_LISTS };
struct typed {
    uint8_t present, annotation;
    struct list of[T_LISTS];
};

static struct typed strands[2];

#define STRAND(s) \
    IN8((s).of[T_BASES]), IN8((s).of[T_QUALS]), IN16((s).of[T_DEPTHS]), IN16((s).of[T_ERRORS]), (s).annotation, \
        IN8((s).of[T_MARKS]), IN32((s).of[T_UNCONVERTED]), IN32((s).of[T_CONVERTED])
#define ARRAYS_OF(s) PLAIN_STRAND(s), IN8((s).of[T_MARKS]), IN32((s).of[T_UNCONVERTED]), IN32((s).of[T_CONVERTED])
#define PLAIN_STRAND(s) IN8((s).of[T_BASES]), IN8((s).of[T_QUALS]), IN16((s).of[T_DEPTHS]), IN16((s).of[T_ERRORS])

static void some_strand(struct typed *t, size_t n)
{
    t->present = some_answer();
    t->annotation = some_choice();
    some_bases(&t->of[T_BASES], n);
    some_quals(&t->of[T_QUALS], about(n));
    some_counts(&t->of[T_DEPTHS], about(n));
    some_counts(&t->of[T_ERRORS], about(n));
    some_marks(&t->of[T_MARKS], about(n));
    some_totals(&t->of[T_UNCONVERTED], about(n));
    some_totals(&t->of[T_CONVERTED], about(n));
    if (once_in(4))
        memset(t->of[T_DEPTHS].v, 0, sizeof t->of[T_DEPTHS].v);
    if (once_in(6) && n > 0) /* depth at the end alone */
        t->of[T_DEPTHS].v[n - 1] = 1;
    if (once_in(3))
        t->annotation = 0;
}

/* The row that applies to what is given of a strand by a limit: 7, 19 or 8. */
static uint8_t over_or_ragged(const struct typed *t, int annotated, size_t limit)
{
    size_t longest = 0;
    int ragged = 0;
    for (int k = 0; k < (annotated ? T_LISTS : T_MARKS); k++) {
        longest = t->of[k].n > longest ? t->of[k].n : longest;
        ragged |= t->of[k].n != t->of[T_BASES].n;
    }
    return longest > MOST_POSITIONS ? 7 : longest > limit ? 19 : ragged ? 8 : 0;
}

/* Of an entry that takes none. */
static uint8_t strand_refused(const struct typed *t, int annotated)
{
    return over_or_ragged(t, annotated, MOST_POSITIONS);
}

/* The row that comes first for two. */
static uint8_t either(uint8_t one, uint8_t two)
{
    static const uint8_t order[] = {7, 19, 8, 0};
    const uint8_t *first = order;
    while (*first != 0 && *first != one && *first != two)
        first++;
    return *first;
}

/* The strand as reference.h has it, where nothing refuses it. */
static void as_bytes(const struct typed *t, int k, struct strand *s)
{
    static uint8_t bytes[2][ARRAYS][9 * MOST_NUMBERS];
    size_t n = t->of[T_BASES].n;
    s->present = t->present;
    s->annotated = t->annotation != 0;
    s->pattern = (uint8_t)(t->annotation - 1);
    put_list(bytes[k][BASES], 1, &t->of[T_BASES]);
    put_list(bytes[k][QUALS], 1, &t->of[T_QUALS]);
    put_list(bytes[k][DEPTHS], 2, &t->of[T_DEPTHS]);
    put_list(bytes[k][ERRORS], 2, &t->of[T_ERRORS]);
    for (size_t i = 0; s->annotated && i < n; i++) {
        bytes[k][EVIDENCE][9 * i] = (uint8_t)t->of[T_MARKS].v[i];
        put_number(bytes[k][EVIDENCE] + 9 * i + 1, t->of[T_UNCONVERTED].v[i], 4);
        put_number(bytes[k][EVIDENCE] + 9 * i + 5, t->of[T_CONVERTED].v[i], 4);
    }
    for (int a = 0; a < ARRAYS; a++)
        s->of[a] = (struct array){bytes[k][a], a == EVIDENCE && !s->annotated ? 0 : n * width[a]};
}

/* ---- what is written: bases, qualities, errors, the evidence of A and of B */

enum { T_OUTPUTS = 9, T_FIRST_EVIDENCE = 3, T_SECOND_EVIDENCE = 6 };
static const int t_width[T_OUTPUTS] = {1, 1, 2, 1, 4, 4, 1, 4, 4};
static struct list written[T_OUTPUTS];
static size_t room[T_OUTPUTS];

#define EVIDENCE_OUT(k) OUT8(k, room[k]), OUT32(k + 1, room[k + 1]), OUT32(k + 2, room[k + 2])
#define RECORD_OUT OUT8(0, room[0]), OUT8(1, room[1]), OUT16(2, room[2])

static void read_numbers(struct list *l, const uint8_t *at, size_t n, size_t step, int bytes)
{
    l->n = n;
    for (size_t i = 0; i < n; i++)
        l->v[i] = number_at(at + step * i, bytes);
}

static void wanted_lists(const struct duplex_wanted *w, int first, int second)
{
    size_t n = w->positions;
    read_numbers(&written[0], w->out[BASES_OUT], n, 1, 1);
    read_numbers(&written[1], w->out[QUALS_OUT], n, 1, 1);
    read_numbers(&written[2], w->out[ERRORS_OUT], n, 2, 2);
    for (int k = 0; k < 2; k++) {
        const uint8_t *at = w->out[A_EVIDENCE_OUT + k];
        size_t positions = (k == 0 ? first : second) ? n : 0;
        struct list *to = written + T_FIRST_EVIDENCE + 3 * k;
        read_numbers(to, at, positions, 9, 1);
        read_numbers(to + 1, at + 1, positions, 9, 4);
        read_numbers(to + 2, at + 5, positions, 9, 4);
    }
}

static void some_rooms(size_t positions)
{
    for (int k = 0; k < T_OUTPUTS; k++)
        room[k] = once_in(4) ? some_room(written[k].n) : some_room(positions);
}

static uint8_t room_refused(int outputs)
{
    for (int k = 0; k < outputs; k++)
        if (room[k] < written[k].n)
            return 12;
    return 0;
}

static void outputs_are(const char *name, uint8_t refused, int outputs)
{
    saw(name, refused);
    for (int k = 0; refused == 0 && k < outputs; k++)
        expect(k, t_width[k], &written[k]);
    settle(name);
}

static void count_is(const char *name, struct gedrashiw_count r, uint8_t refused, size_t count, int outputs)
{
    same(name, "refused", r.refused, refused);
    same(name, "count", r.count, refused ? 0 : count);
    outputs_are(name, refused, outputs);
}

/* ---- two strands, and one */

static struct duplex_given given;
static struct duplex_wanted wanted;

static void try_combine(int annotated)
{
    size_t a = some_length();
    uint8_t listed = some_answer();
    struct gedrashiw_settings settings = {some_ceiling(), some_limit(a)};
    some_strand(&strands[0], a);
    some_strand(&strands[1], once_in(2) ? a : some_length());
    for (int k = 0; k < 2 && !annotated; k++)
        strands[k].annotation = 0;
    uint8_t refused = 0;
    for (int k = 0; k < 2; k++)
        refused = either(refused, over_or_ragged(&strands[k], strands[k].annotation != 0, settings.limit));
    if (ceiling_outside(settings.ceiling))
        refused = 14;
    if (strands[0].annotation > 2 || strands[1].annotation > 2)
        refused = 13;
    memset(&wanted, 0, sizeof wanted);
    if (refused == 0) {
        given = (struct duplex_given){.listed = listed, .ceiling = settings.ceiling, .limit = settings.limit, .reads = {NULL, 0}};
        for (int k = 0; k < 2; k++)
            as_bytes(&strands[k], k, &given.strand[k]);
        size_t b = strands[1].of[T_BASES].n;
        wanted.positions = a < b ? a : b;
        write_both(&given, &wanted);
    }
    wanted_lists(&wanted, strands[0].annotation != 0, strands[1].annotation != 0);
    some_rooms(wanted.positions);
    int outputs = annotated ? T_OUTPUTS : T_FIRST_EVIDENCE;
    refused = refused ? refused : room_refused(outputs);
    struct gedrashiw_told_strands told = {strands[0].annotation, strands[1].annotation, listed, settings};
    EVERY_PLACE {
        if (annotated)
            count_is("combine_strands_annotated",
                     gedrashiw_combine_strands_annotated(told, ARRAYS_OF(strands[0]), ARRAYS_OF(strands[1]), RECORD_OUT,
                                                         EVIDENCE_OUT(T_FIRST_EVIDENCE), EVIDENCE_OUT(T_SECOND_EVIDENCE)),
                     refused, wanted.positions, outputs);
        else
            count_is("combine_strands",
                     gedrashiw_combine_strands(listed, settings, PLAIN_STRAND(strands[0]), PLAIN_STRAND(strands[1]), RECORD_OUT),
                     refused, wanted.positions, outputs);
    }
}

static void try_single(void)
{
    struct typed *t = &strands[0];
    some_strand(t, some_length());
    uint8_t refused = t->annotation > 2 ? 13 : strand_refused(t, t->annotation != 0);
    memset(&wanted, 0, sizeof wanted);
    if (refused == 0) {
        struct strand s;
        as_bytes(t, 0, &s);
        wanted.positions = t->of[T_BASES].n;
        write_alone(&s, &wanted);
    }
    wanted_lists(&wanted, t->annotation != 0, 0);
    some_rooms(wanted.positions);
    refused = refused ? refused : room_refused(T_SECOND_EVIDENCE);
    EVERY_PLACE
        count_is("gated_single_strand", gedrashiw_gated_single_strand(STRAND(*t), RECORD_OUT, EVIDENCE_OUT(T_FIRST_EVIDENCE)), refused,
                 wanted.positions, T_SECOND_EVIDENCE);
}

/* ---- the record, with source reads */

static struct gedrashiw_source_read reads[MOST_NUMBERS];
static struct list bytes;
static uint8_t run[16 * MOST_NUMBERS];

/* So many reads by chance; whether one leaves the bytes. */
static int some_reads(size_t n)
{
    int leaves = 0;
    some_bases(&bytes, chance() % 60);
    for (size_t i = 0; i < n; i++) {
        size_t offset = chance() % (bytes.n + 1), most = bytes.n - offset < 9 ? bytes.n - offset : 9;
        uint16_t flags = (uint16_t)(once_in(4) ? chance() : once_in(2) ? 0x41 : 0x81);
        reads[i] = (struct gedrashiw_source_read){flags, offset, chance() % (most + 1)};
        if (once_in(400))
            reads[i].length = bytes.n - offset + 1;
        if (once_in(400))
            reads[i].offset = SIZE_MAX - chance() % 3;
        leaves |= reads[i].offset > bytes.n || reads[i].length > bytes.n - reads[i].offset;
    }
    return leaves;
}

static struct array run_of(size_t n)
{
    uint8_t *to = run;
    for (size_t i = 0; i < n; i++) {
        *to++ = READ_TAG;
        put_number(to, (uint32_t)reads[i].length + 2, 2);
        put_number(to + 2, reads[i].flags, 2);
        for (size_t k = 0; k < reads[i].length; k++)
            to[4 + k] = (uint8_t)bytes.v[reads[i].offset + k];
        to += 4 + reads[i].length;
    }
    return (struct array){run, (size_t)(to - run)};
}

/* What the record must be of what is given, where no input is refused. */
static void reckon(size_t n, uint8_t listed, struct gedrashiw_settings settings, uint8_t refused)
{
    memset(&wanted, 0, sizeof wanted);
    if (refused == 0) {
        given = (struct duplex_given){
            .listed = listed, .ceiling = settings.ceiling, .limit = settings.limit, .reads = run_of(listed ? n : 0)};
        for (int k = 0; k < 2; k++)
            if (strands[k].present)
                as_bytes(&strands[k], k, &given.strand[k]);
        for (int k = 0; k < OUTPUTS; k++)
            given.room[k] = 9 * MOST_POSITIONS;
        duplex_expected(&given, &wanted);
    }
    wanted_lists(&wanted, wanted.written[A_EVIDENCE_OUT] > 0, wanted.written[B_EVIDENCE_OUT] > 0);
}

static void consensus_is(size_t n, uint8_t listed, struct gedrashiw_settings settings, uint8_t refused)
{
    struct gedrashiw_told_molecule molecule = {
        {strands[0].present, strands[0].annotation}, {strands[1].present, strands[1].annotation}, listed, settings};
    EVERY_PLACE {
        struct gedrashiw_duplex_record r = gedrashiw_duplex_consensus_typed(
            molecule, ARRAYS_OF(strands[0]), ARRAYS_OF(strands[1]),
            (const struct gedrashiw_source_read *)lent_parts(reads, n * sizeof *reads), n, IN8(bytes), RECORD_OUT,
            EVIDENCE_OUT(T_FIRST_EVIDENCE), EVIDENCE_OUT(T_SECOND_EVIDENCE));
        same("duplex_consensus_typed", "refused", r.refused, refused);
        same("duplex_consensus_typed", "kind", r.kind, refused ? 0 : wanted.kind);
        same("duplex_consensus_typed", "positions", r.positions, refused ? 0 : wanted.positions);
        outputs_are("duplex_consensus_typed", refused, T_OUTPUTS);
    }
}

static void try_consensus(void)
{
    size_t a = some_length(), n = some_length();
    uint8_t listed = some_answer();
    struct gedrashiw_settings settings = {some_ceiling(), some_limit(a)};
    some_strand(&strands[0], a);
    some_strand(&strands[1], once_in(2) ? a : some_length());
    int leaves = some_reads(n), wrong = 0;
    uint8_t refused = 0;
    for (int k = 0; k < 2; k++)
        if (strands[k].present) {
            wrong |= strands[k].annotation > 2;
            refused = either(refused, over_or_ragged(&strands[k], strands[k].annotation != 0, settings.limit));
        }
    refused = wrong                               ? 13
              : ceiling_outside(settings.ceiling) ? 14
              : refused                           ? refused
              : listed && n > MOST_READS          ? 9
              : listed && leaves                  ? 10
                                                  : 0;
    reckon(n, listed, settings, refused);
    some_rooms(wanted.positions);
    consensus_is(n, listed, settings, refused ? refused : room_refused(T_OUTPUTS));
}

/* ---- why a position shows N */

static long reasons[GEDRASHIW_REASON_LOW_CONFIRMING + 1];

static void ask(size_t position, uint8_t refused)
{
    struct gedrashiw_reason w = {refused, GEDRASHIW_REASON_REFUSED};
    if (refused == 0)
        w = reason_expected(&given, position);
    reasons[w.reason]++;
    EVERY_PLACE {
        struct gedrashiw_reason r = gedrashiw_no_call_reason_typed(strands[0].present, STRAND(strands[0]), strands[1].present,
                                                                   STRAND(strands[1]), position);
        saw("no_call_reason_typed", w.refused);
        same("no_call_reason_typed", "refused", r.refused, w.refused);
        same("no_call_reason_typed", "reason", r.reason, w.reason);
        settle("no_call_reason_typed");
    }
}

/* Often low qualities, and now and then strands that show calls, so that every reason occurs. */
static void try_reason(void)
{
    size_t a = some_length();
    int low = once_in(2), calls = once_in(4), wrong = 0;
    uint8_t refused = 0;
    some_strand(&strands[0], a);
    some_strand(&strands[1], once_in(2) ? a : some_length());
    for (int k = 0; k < 2; k++) {
        struct typed *t = &strands[k];
        for (size_t i = 0; low && i < t->of[T_QUALS].n; i++)
            t->of[T_QUALS].v[i] %= 4;
        for (size_t i = 0; calls && i < t->of[T_BASES].n; i++)
            t->of[T_BASES].v[i] = (uint8_t) "TtcCCG"[3 * (uint32_t)k + chance() % 3];
        if (calls) {
            t->annotation = (uint8_t)(k + 1);
            t->present = 1;
        }
        if (t->present) {
            wrong |= t->annotation > 2;
            refused = either(refused, strand_refused(t, t->annotation != 0));
        }
    }
    refused = wrong ? 13 : refused;
    given = (struct duplex_given){0};
    for (int k = 0; refused == 0 && k < 2; k++)
        if (strands[k].present)
            as_bytes(&strands[k], k, &given.strand[k]);
    for (size_t i = 0; i < 3; i++)
        ask(chance() % (a + 1), refused);
    ask(once_in(2) ? about(a) : SIZE_MAX - chance() % 2, refused);
}

/* ---- padding */

enum { P_OUTPUTS = T_LISTS };
static const int p_width[P_OUTPUTS] = {1, 1, 2, 2, 1, 4, 4};
static struct list padded[P_OUTPUTS];

/* The list padded with a number, or, where it is evidence, copied where the length stays and else nothing. */
static void pad(int k, const struct typed *t, size_t length, int left, uint32_t with)
{
    size_t n = t->of[k].n, at = left ? length - n : 0;
    struct list *to = &padded[k];
    to->n = k < T_MARKS ? length : t->annotation != 0 && length == n ? n : 0;
    for (size_t i = 0; i < to->n; i++)
        to->v[i] = i >= at && i < at + n ? t->of[k].v[i - at] : with;
    for (size_t i = 0; k == T_MARKS && i < to->n; i++)
        to->v[i] = to->v[i] != 0;
}

static void try_padded(int by_default)
{
    struct typed *t = &strands[0];
    some_strand(t, some_length());
    size_t n = t->of[T_BASES].n, length = once_in(3) ? n : once_in(4) && n > 0 ? n - 1 : n + chance() % 4, rooms[P_OUTPUTS];
    uint8_t left = some_answer(), base = by_default ? 'n' : (uint8_t)chance(), qual = by_default ? 2 : (uint8_t)chance();
    uint8_t refused = t->annotation > 2 ? 13 : strand_refused(t, t->annotation != 0);
    refused = refused == 13 ? 13 : length > MOST_POSITIONS ? 7 : refused ? refused : length < n ? 11 : 0;
    for (int k = 0; k < P_OUTPUTS; k++) {
        padded[k].n = 0;
        if (refused == 0)
            pad(k, t, length, left, k == T_BASES ? base : k == T_QUALS ? qual : 0);
        rooms[k] = once_in(4) ? some_room(padded[k].n) : some_room(length);
    }
    for (int k = 0; k < P_OUTPUTS; k++)
        if (refused == 0 && rooms[k] < padded[k].n)
            refused = 12;
    const char *name = by_default ? "padded_default" : "padded";
    EVERY_PLACE {
#define PADDED_OUT \
    OUT8(0, rooms[0]), OUT8(1, rooms[1]), OUT16(2, rooms[2]), OUT16(3, rooms[3]), OUT8(4, rooms[4]), OUT32(5, rooms[5]), OUT32(6, rooms[6])
        struct gedrashiw_number r = by_default ? gedrashiw_padded_default(STRAND(*t), length, left, PADDED_OUT)
                                               : gedrashiw_padded(STRAND(*t), length, left, base, qual, PADDED_OUT);
        saw(name, refused);
        same(name, "refused", r.refused, refused);
        same(name, "number", r.number, refused == 0 && length == n ? t->annotation : 0);
        for (int k = 0; refused == 0 && k < P_OUTPUTS; k++)
            expect(k, p_width[k], &padded[k]);
        settle(name);
    }
}

/* Each entry once, on a case by chance. */
static void one_round(void)
{
    try_combine(0);
    try_combine(1);
    try_single();
    try_consensus();
    try_reason();
    try_padded(0);
    try_padded(1);
}

#ifndef FUZZED /* by tests/fuzz */
/* The three entries that combine, on strands that are there; outputs have room for any record. */
static void combined_at(uint16_t limit, uint8_t refused, uint8_t refused_plain)
{
    struct gedrashiw_settings settings = {60, limit};
    reckon(0, 1, settings, refused);
    for (int k = 0; k < T_OUTPUTS; k++)
        room[k] = MOST_POSITIONS;
    consensus_is(0, 1, settings, refused);
    struct gedrashiw_told_strands told = {strands[0].annotation, strands[1].annotation, 1, settings};
    EVERY_PLACE {
        count_is("combine_strands_annotated",
                 gedrashiw_combine_strands_annotated(told, ARRAYS_OF(strands[0]), ARRAYS_OF(strands[1]), RECORD_OUT,
                                                     EVIDENCE_OUT(T_FIRST_EVIDENCE), EVIDENCE_OUT(T_SECOND_EVIDENCE)),
                 refused, wanted.positions, T_OUTPUTS);
        struct gedrashiw_count r = gedrashiw_combine_strands(1, settings, PLAIN_STRAND(strands[0]), PLAIN_STRAND(strands[1]), RECORD_OUT);
        same("combine_strands", "refused", r.refused, refused_plain);
        if (refused_plain != 0)
            outputs_are("combine_strands", refused_plain, 0);
        lent_count = 0; /* what is written otherwise is try_combine's */
    }
}

/* One array of so many positions beside others of four: looked at, of no annotation, and of an absent strand. */
static void one_array(int s, int k, uint16_t limit, size_t n)
{
    uint8_t four = limit < 4 ? 19 : 0, evidence = k >= T_MARKS;
    uint8_t over = n > MOST_POSITIONS ? 7 : n > limit || four ? 19 : 8;
    for (int each = 0; each < 2; each++) {
        strands[each].present = 1;
        strands[each].annotation = (uint8_t)(each + 1);
        for (int list = 0; list < T_LISTS; list++)
            strands[each].of[list].n = 4;
    }
    strands[s].of[k].n = n;
    combined_at(limit, over, evidence ? four : over);
    strands[s].annotation = 0;
    combined_at(limit, evidence ? four : over, evidence ? four : over);
    strands[s].annotation = (uint8_t)(s + 1);
    strands[s].present = 0;
    struct gedrashiw_settings settings = {60, limit};
    reckon(0, 1, settings, four);
    consensus_is(0, 1, settings, four);
}

/* Whole strands, the other of four positions or of as many. */
static void whole_strands(uint16_t limit, size_t n)
{
    uint8_t refused = n > MOST_POSITIONS ? 7 : n > limit ? 19 : 0;
    for (int which = 1; which < 4; which++) {
        for (int s = 0; s < 2; s++)
            for (int list = 0; list < T_LISTS; list++)
                strands[s].of[list].n = which >> s & 1 ? n : 4;
        strands[0].present = strands[1].present = 1;
        strands[0].annotation = 1;
        strands[1].annotation = 2;
        combined_at(limit, refused, refused);
    }
}

/* Limits and arrays at both ends of each. */
static void each_size(void)
{
    static const uint16_t limits[] = {0, 3, 4, 255, 256, 257, 1023, 1024, 1025, 65535};
    static const size_t sizes[] = {255, 256, 257, 1023, 1024, 1025};
    for (int s = 0; s < 2; s++) {
        do
            some_strand(&strands[s], MOST_POSITIONS + 1);
        while (strands[s].of[T_BASES].n < MOST_POSITIONS + 1);
        for (size_t i = 0; i < MOST_POSITIONS + 1; i++)
            strands[s].of[T_DEPTHS].v[i] = 1 + (uint32_t)i % 5;
    }
    for (size_t l = 0; l < sizeof limits / sizeof *limits; l++)
        for (size_t n = 0; n < sizeof sizes / sizeof *sizes; n++) {
            for (int k = 0; k < 2 * T_LISTS; k++)
                one_array(k / T_LISTS, k % T_LISTS, limits[l], sizes[n]);
            whole_strands(limits[l], sizes[n]);
        }
}

/* Every choice of the rows that the record's entry has, in one of two ways: the first in their order is answered. */
static void several_faults(void)
{
    static const uint8_t order[] = {13, 14, 7, 19, 8, 9, 10, 12};
    enum { FAULTS = sizeof order };
    for (int faults = 0; faults < 1 << FAULTS; faults++)
        for (int way = 0; way < 2; way++) {
            int met[ROWS] = {0};
            uint8_t refused = 0;
            struct gedrashiw_settings settings = {60, 4};
            size_t n = 2;
            for (int k = FAULTS - 1; k >= 0; k--)
                if (faults >> k & 1) {
                    refused = order[k];
                    met[refused] = 1;
                }
            for (int k = 0; k < 2; k++) {
                do
                    some_strand(&strands[k], 4);
                while (strand_refused(&strands[k], 1) != 0);
                strands[k].present = 1;
                strands[k].annotation = (uint8_t)(k + 1);
                strands[k].of[T_DEPTHS].v[way] = 1;
            }
            while (some_reads(n))
                ;
            reckon(n, 1, settings, 0);
            for (int k = 0; k < T_OUTPUTS; k++)
                room[k] = written[k].n;
            struct typed *one = &strands[way], *other = &strands[1 - way];
            if (met[13])
                one->annotation = way ? 3 : 255;
            if (met[14])
                settings.ceiling = way ? GEDRASHIW_MAX_CEILING + 1 : GEDRASHIW_MIN_CEILING - 1;
            if (met[19])
                settings.limit = way ? 0 : 3;
            if (met[7])
                other->of[way ? T_QUALS : T_CONVERTED].n = MOST_POSITIONS + 1;
            if (met[8])
                one->of[way ? T_ERRORS : T_MARKS].n--;
            if (met[9])
                n = MOST_READS + 1;
            if (met[10])
                reads[1] = (struct gedrashiw_source_read){0x41, way ? SIZE_MAX : 0, way ? 1 : bytes.n + 1};
            if (met[12])
                room[way ? T_SECOND_EVIDENCE : 1]--;
            consensus_is(n, 1, settings, refused);
        }
}

int main(void)
{
    make_lent_blocks();
    for (int k = 0; k < 6000; k++)
        one_round();
    several_faults();
    each_size();
    rows("combine_strands", "14 7 19 8 12");
    rows("combine_strands_annotated", "13 14 7 19 8 12");
    rows("gated_single_strand", "13 7 8 12");
    rows("duplex_consensus_typed", "13 14 7 19 8 9 10 12");
    rows("no_call_reason_typed", "13 7 8");
    for (int k = 0; k <= GEDRASHIW_REASON_LOW_CONFIRMING; k++)
        check("no_call_reason_typed", reasons[k] > 0, "a reason did not occur");
    rows("padded", "13 7 8 11 12");
    rows("padded_default", "13 7 8 11 12");
    all_nulls();
    printf("the typed entries over strands: %ld checks, %ld failures\n", checks, failures);
    return failures != 0;
}
#endif
