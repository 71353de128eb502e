/* Calls gedrashiw_duplex_consensus, gedrashiw_preview_consensus and gedrashiw_no_call_reason as a C program does (duplex_case.h says how, and what is
 * compared: every case here is one of both consensus entries). Expected values are those of
 * a reference over the Rust in the fixed list, or written out here, or reference.h's, which must agree with both. */
#define _DEFAULT_SOURCE
#include "duplex_case.h"
#include "molecule.h"

/* ---- worked examples */

/* One position of two strands, without annotation. */
static void position(const char *name, char a, uint8_t a_qual, char b, uint8_t b_qual, char base, uint8_t qual, uint32_t errors)
{
    struct duplex_given g = fresh(1, 1);
    set_base(0, 0, a, a_qual);
    set_base(1, 0, b, b_qual);
    gives(name, &g, want(BOTH, (char[]){base, 0}, &qual, &errors));
}

static void positions_of_document_01(void)
{
    position("P1", 'A', 30, 'A', 20, 'A', 50, 0);
    position("P2", 'A', 60, 'A', 60, 'A', 93, 0);
    position("P3", 'A', 33, 'C', 30, 'A', 3, 1);
    position("P4", 'A', 32, 'C', 30, 'N', 2, 1);
    position("P5", 'A', 30, 'C', 30, 'N', 2, 1);
    position("P6", 'A', 30, 'N', 2, 'N', 2, 1);
    position("P7, 1 and 1", 'A', 1, 'A', 1, 'N', 2, 0);
    position("P7, 1 and 2", 'A', 1, 'A', 2, 'A', 3, 0);
    position("B wins", 'A', 20, 'C', 40, 'C', 20, 1);
    position("case tells bases apart", 'A', 40, 'a', 20, 'A', 20, 1);
    position("n is not N", 'n', 20, 'n', 20, 'n', 40, 0);
    position("qualities of 255", 'A', 255, 'A', 255, 'A', 93, 0);

    struct duplex_given g = fresh(1, 1);
    set_base(1, 0, 'C', 20);
    set_counts(1, 0, 3, 5);
    gives("P8", &g, want(BOTH, "A", (uint8_t[]){10}, (uint32_t[]){0}));
    g = fresh(1, 1);
    set_counts(0, 0, 1, 20000);
    set_counts(1, 0, 1, 20000);
    gives("P9", &g, want(BOTH, "A", (uint8_t[]){60}, (uint32_t[]){32767}));

    g = fresh(4, 4);
    static const uint8_t b_quals[] = {20, 40, 30, 2};
    for (size_t i = 0; i < 4; i++) {
        set_base(0, i, "ACGT"[i], 30);
        set_base(1, i, "ACTN"[i], b_quals[i]);
        set_counts(0, i, 2, 0);
    }
    gives("the printed example", &g, want(BOTH, "ACNN", (uint8_t[]){50, 70, 2, 2}, (uint32_t[]){0, 0, 1, 1}));
    g.strand[0].present = 200;
    g.strand[1].present = 255;
    gives("present by other numbers", &g, &wanted);
    set_room(&g, 9);
    g.room[ERRORS_OUT] = 11;
    gives("more room", &g, &wanted);
}

/* What is written at 93 with the qualities of another ceiling, written out. A strand alone keeps its own at each. */
static void ceilings(void)
{
    static const uint8_t at[] = {3, 60, 92, 93};
    static const uint8_t quals[4][4] = {{3, 3, 3, 2}, {50, 60, 3, 2}, {50, 92, 3, 2}, {50, 93, 3, 2}};
    static const uint8_t a_quals[] = {30, 60, 33, 32}, b_quals[] = {20, 60, 30, 30};
    for (int k = 0; k < 4; k++) {
        struct duplex_given g = fresh(4, 4);
        for (size_t i = 0; i < 4; i++) {
            set_base(0, i, "ACGT"[i], a_quals[i]);
            set_base(1, i, "ACCC"[i], b_quals[i]);
        }
        g.ceiling = at[k];
        gives("a ceiling", &g, want(BOTH, "ACGN", quals[k], (uint32_t[]){0, 0, 1, 1}));
        /* The errors are against the unmasked bases, at each ceiling. */
        read_of(&g, 0x41, "ACCC");
        read_of(&g, 0x81, "TNGT");
        gives("a ceiling, reads", &g, want(BOTH, "ACGN", quals[k], (uint32_t[]){1, 0, 1, 1}));
        g.strand[1].present = 0;
        gives("a ceiling, A alone", &g, want(A_ALONE, "ACGT", a_quals, (uint32_t[]){0, 0, 0, 0}));
        g.strand[0].present = 0;
        static const struct duplex_wanted none;
        gives("a ceiling, no strands", &g, &none);
    }
}

/* P10 and its mirror: the informative strand shows the converted base with quality 30, the other the call's with 40. */
static void p10(int informative, uint8_t pattern, uint8_t mark)
{
    static const char *const name = "P10";
    struct duplex_given g = fresh(1, 1);
    int other = 1 - informative;
    set_base(informative, 0, "TA"[pattern], 30);
    set_base(other, 0, "CG"[pattern], 40);
    annotate(&g, informative, pattern);
    annotate(&g, other, 1 - pattern);
    set_evidence(informative, 0, mark, 3, 0x89abcdef);
    set_evidence(other, 0, 1, 7, 9);
    want(BOTH, pattern == C_TO_T ? "C" : "G", (uint8_t[]){mark == 0 ? 40 : 70}, (uint32_t[]){0});
    want_evidence(A_EVIDENCE_OUT);
    want_evidence(B_EVIDENCE_OUT);
    want_kept(A_EVIDENCE_OUT + informative, 0, 3, 0x89abcdef);
    gives(name, &g, &wanted);
    g.strand[0].annotated = 128;
    g.strand[1].annotated = 2;
    gives(name, &g, &wanted);
}

/* C to T against G to A, a position each: both calls, letters in lower case, a conflict, a mark of 200, an N, no confirmation. */
static struct duplex_given annotated_strands(void)
{
    static const char ct[] = "CTgGGtNA", ga[] = "CcgAcCCT";
    static const uint8_t ct_quals[] = {10, 20, 30, 20, 21, 3, 2, 40}, ga_quals[] = {5, 41, 30, 9, 60, 4, 50, 20};
    struct duplex_given g = fresh(8, 8);
    annotate(&g, 0, C_TO_T);
    annotate(&g, 1, G_TO_A);
    for (size_t i = 0; i < 8; i++) {
        set_base(0, i, ct[i], ct_quals[i]);
        set_base(1, i, ga[i], ga_quals[i]);
        set_counts(0, i, 5, 1);
        set_counts(1, i, 4, 2);
        set_evidence(0, i, i == 5 ? 200 : 0, 10 + (uint32_t)i, 4294967295u);
        set_evidence(1, i, 1, 20 + (uint32_t)i, 65536);
    }
    return g;
}

static void calls(void)
{
    struct duplex_given g = annotated_strands();
    /* At 4, G against c: a conflict, B wins with 39. At 6, N against C: N. At 7, A against T: A wins with 20. */
    want(BOTH, "CCGGcCNA", (uint8_t[]){15, 41, 60, 29, 39, 7, 2, 20}, (uint32_t[]){3, 3, 3, 3, 6, 3, 6, 3});
    want_evidence(A_EVIDENCE_OUT);
    want_evidence(B_EVIDENCE_OUT);
    want_kept(A_EVIDENCE_OUT, 0, 10, 4294967295u);
    want_kept(A_EVIDENCE_OUT, 1, 11, 4294967295u);
    want_kept(B_EVIDENCE_OUT, 2, 22, 65536);
    want_kept(B_EVIDENCE_OUT, 3, 23, 65536);
    want_kept(A_EVIDENCE_OUT, 5, 15, 4294967295u);
    gives("calls", &g, &wanted);

    /* Reads without flag 0x80 are of C to T. At a C-to-T call they should show A's own byte, the others C; and so on. */
    read_of(&g, 0x41, "CTGGcTNA");
    read_of(&g, 0x81, "CCGAcCNAACGT");
    read_of(&g, 0x80, "TCAG");
    read_of(&g, 0xff7f, "NNCN");
    read_of(&g, 0, "");
    memcpy(wanted.out[ERRORS_OUT], "\1\0\0\0\3\0\1\0\0\0\1\0\0\0\0\0", 16);
    gives("calls, reads", &g, &wanted);
    g.listed = 77;
    gives("listed by another number", &g, &wanted);
    g.reads.len = 0;
    memset(wanted.out[ERRORS_OUT], 0, 16);
    gives("calls, an empty list", &g, &wanted);
}

/* Alike, or one of them alone: no calls, and what evidence there is becomes clear. */
static void no_calls(void)
{
    struct duplex_given g = annotated_strands();
    g.strand[1].pattern = C_TO_T;
    want(BOTH, "CcgGcNNA", (uint8_t[]){15, 21, 60, 11, 39, 2, 2, 20}, (uint32_t[]){3, 6, 3, 3, 6, 6, 6, 3});
    want_evidence(A_EVIDENCE_OUT);
    want_evidence(B_EVIDENCE_OUT);
    gives("annotated alike", &g, &wanted);
    g.strand[1].annotated = 0;
    g.room[B_EVIDENCE_OUT] = 4;
    wanted.written[B_EVIDENCE_OUT] = 0;
    gives("A annotated", &g, &wanted);
    g.strand[0].annotated = 0;
    g.strand[1].annotated = 1;
    set_room(&g, 8);
    g.room[A_EVIDENCE_OUT] = 0;
    wanted.written[A_EVIDENCE_OUT] = 0;
    want_evidence(B_EVIDENCE_OUT);
    gives("B annotated", &g, &wanted);
}

static void annotated_examples(void)
{
    static const uint8_t marks[] = {0, 1, 200, 255};
    for (int k = 0; k < 16; k++)
        p10(k & 1, k >> 1 & 1, marks[k >> 2]);
    calls();
    no_calls();
}

/* A strand alone: copied whole, its evidence kept where it is informative, in the first strand's output. */
static void alone(int s, int other_present)
{
    struct duplex_given g = fresh(3, 3);
    g.strand[1 - s].present = 0;
    if (other_present) {
        /* Shorter, and not covered there. The strand alone is not cut. */
        g.strand[1 - s].present = 1;
        for (int k = 0; k < EVIDENCE; k++)
            g.strand[1 - s].of[k].len = 2 * width[k];
        set_counts(1 - s, 0, 0, 5);
        set_counts(1 - s, 1, 0, 5);
    }
    annotate(&g, s, G_TO_A);
    set_base(s, 0, 'g', 0);
    set_base(s, 1, 'N', 255);
    set_base(s, 2, '\xff', 94);
    set_counts(s, 0, 0, 65535);
    set_counts(s, 1, 1, 258);
    set_evidence(s, 0, 200, 1, 16909060);
    set_evidence(s, 1, 0, 3, 4);
    set_evidence(s, 2, 1, 4278190080u, 6);
    g.room[B_EVIDENCE_OUT] = 0;
    want((uint8_t)(s == 0 ? A_ALONE : B_ALONE), "gN\xff", (uint8_t[]){0, 255, 94}, (uint32_t[]){65535, 258, 0});
    want_evidence(A_EVIDENCE_OUT);
    want_kept(A_EVIDENCE_OUT, 0, 1, 16909060);
    want_kept(A_EVIDENCE_OUT, 2, 4278190080u, 6);
    gives(s == 0 ? "A alone" : "B alone", &g, &wanted);
    g.strand[s].annotated = 255;
    gives("alone, annotated by another number", &g, &wanted);
    read_of(&g, 0x41, "ACGT");
    gives("alone beside reads", &g, &wanted);
    g.strand[s].annotated = 0;
    g.room[A_EVIDENCE_OUT] = 0;
    wanted.written[A_EVIDENCE_OUT] = 0;
    memset(wanted.out[A_EVIDENCE_OUT], 0, sizeof wanted.out[A_EVIDENCE_OUT]);
    gives("alone, not annotated", &g, &wanted);
}

static void lengths(void)
{
    struct duplex_given g = fresh(5, 3);
    annotate(&g, 0, C_TO_T);
    annotate(&g, 1, G_TO_A);
    set_room(&g, 3);
    want(BOTH, "AAA", (uint8_t[]){60, 60, 60}, (uint32_t[]){0, 0, 0});
    want_evidence(A_EVIDENCE_OUT);
    want_evidence(B_EVIDENCE_OUT);
    gives("A is longer", &g, &wanted);
    for (size_t i = 0; i < 3; i++)
        set_counts(0, i, 0, 0);
    set_room(&g, 5);
    want(B_ALONE, "AAA", (uint8_t[]){30, 30, 30}, (uint32_t[]){0, 0, 0});
    want_evidence(A_EVIDENCE_OUT);
    gives("A is covered past the record alone", &g, &wanted);

    static const struct duplex_wanted none;
    g = fresh(3, 3);
    g.strand[0].present = g.strand[1].present = 0;
    set_room(&g, 0);
    gives("no strands", &g, &none);
    g = fresh(0, 0);
    gives("strands of no positions", &g, &none);
    g = fresh(0, 4);
    gives("A has no positions", &g, &none);
    g = fresh(2, 2);
    for (int k = 0; k < 4; k++)
        set_counts(k / 2, k % 2, 0, 9);
    set_room(&g, 0);
    gives("neither covered, no room", &g, &none);
    set_room(&g, 7);
    gives("neither covered", &g, &none);
}

/* ---- reasons for N, written out */

static void reason_is(const char *name, const struct duplex_given *g, size_t position, uint8_t refused, uint8_t reason)
{
    struct gedrashiw_reason w = reason_expected(g, position), r = reason_call(g, position);
    check(name, w.refused == refused && w.reason == reason, "the two expectations differ");
    check(name, r.refused == refused && r.reason == reason, "another reason");
    duplex_expected(g, &reckoned);
    run(name, g, &reckoned);
}

/* One position of two strands, without annotation. */
static void why(const char *name, char a, uint8_t a_qual, char b, uint8_t b_qual, uint8_t reason)
{
    struct duplex_given g = fresh(1, 1);
    set_base(0, 0, a, a_qual);
    set_base(1, 0, b, b_qual);
    reason_is(name, &g, 0, 0, reason);
    reason_is(name, &g, 1, 0, GEDRASHIW_REASON_OUTSIDE);
}

/* P10 and its mirror with these qualities and this mark, the informative strand first or second. */
static void why_at_a_call(uint8_t own, uint8_t confirming, uint8_t mark, uint8_t reason)
{
    for (int k = 0; k < 4; k++) {
        int informative = k & 1;
        uint8_t pattern = (uint8_t)(k >> 1);
        struct duplex_given g = fresh(1, 1);
        set_base(informative, 0, "TA"[pattern], own);
        set_base(1 - informative, 0, "CG"[pattern], confirming);
        annotate(&g, informative, pattern);
        annotate(&g, 1 - informative, 1 - pattern);
        set_evidence(informative, 0, mark, 0, 0);
        set_evidence(1 - informative, 0, 1, 5, 5);
        reason_is("a call", &g, 0, 0, reason);
    }
}

static void reasons_of_positions(void)
{
    why("P1", 'A', 30, 'A', 20, GEDRASHIW_REASON_CALLED);
    why("P3", 'A', 33, 'C', 30, GEDRASHIW_REASON_CALLED);
    why("P4", 'A', 32, 'C', 30, GEDRASHIW_REASON_CLOSE_QUALITIES);
    why("a difference of 1", 'A', 30, 'C', 31, GEDRASHIW_REASON_CLOSE_QUALITIES);
    why("P5", 'A', 30, 'C', 30, GEDRASHIW_REASON_EQUAL_QUALITIES);
    why("P6", 'A', 30, 'N', 2, GEDRASHIW_REASON_B_NO_CALL);
    why("A is N", 'N', 2, 'A', 2, GEDRASHIW_REASON_A_NO_CALL);
    why("both are N", 'N', 0, 'N', 90, GEDRASHIW_REASON_BOTH_NO_CALL);
    why("P7, 1 and 1", 'A', 1, 'A', 1, GEDRASHIW_REASON_LOW_SUM);
    why("P7, 1 and 2", 'A', 1, 'A', 2, GEDRASHIW_REASON_CALLED);
    why("n is not N", 'n', 2, 'n', 2, GEDRASHIW_REASON_CALLED);
    why("n of low quality", 'n', 1, 'n', 1, GEDRASHIW_REASON_LOW_SUM);
    why("n beside N", 'n', 90, 'N', 2, GEDRASHIW_REASON_B_NO_CALL);
    why("case tells bases apart", 'a', 30, 'A', 30, GEDRASHIW_REASON_EQUAL_QUALITIES);
    why("qualities of 255", 'A', 255, 'C', 253, GEDRASHIW_REASON_CLOSE_QUALITIES);
    why_at_a_call(30, 2, 0, GEDRASHIW_REASON_LOW_CONFIRMING);
    why_at_a_call(255, 0, 0, GEDRASHIW_REASON_LOW_CONFIRMING);
    why_at_a_call(0, 3, 0, GEDRASHIW_REASON_CALLED);
    why_at_a_call(30, 2, 1, GEDRASHIW_REASON_CALLED);
    why_at_a_call(1, 1, 200, GEDRASHIW_REASON_LOW_SUM);
    why_at_a_call(1, 2, 255, GEDRASHIW_REASON_CALLED);
}

/* Of records of two strands, of one and of none: the last position and the next. */
static void reasons_of_records(void)
{
    struct duplex_given g = fresh(5, 3);
    reason_is("two strands", &g, 2, 0, GEDRASHIW_REASON_CALLED);
    reason_is("past the shorter strand", &g, 3, 0, GEDRASHIW_REASON_OUTSIDE);
    for (size_t i = 0; i < 3; i++)
        set_counts(1, i, 0, 0);
    set_base(0, 4, 'N', 2);
    reason_is("A alone, past the other", &g, 4, 0, GEDRASHIW_REASON_SINGLE_STRAND);
    reason_is("past A alone", &g, 5, 0, GEDRASHIW_REASON_OUTSIDE);
    for (size_t i = 0; i < 3; i++)
        set_counts(0, i, 0, 0);
    reason_is("depth past the shorter strand alone", &g, 0, 0, GEDRASHIW_REASON_OUTSIDE);
    g.strand[1].present = 0;
    reason_is("A there alone", &g, 0, 0, GEDRASHIW_REASON_SINGLE_STRAND);
    g.strand[0].present = 0;
    reason_is("no strands", &g, 0, 0, GEDRASHIW_REASON_OUTSIDE);
    g = fresh(1024, 1024);
    reason_is("1,024 positions, the last", &g, 1023, 0, GEDRASHIW_REASON_CALLED);
    reason_is("1,024 positions, past the last", &g, 1024, 0, GEDRASHIW_REASON_OUTSIDE);
    reason_is("the last machine word", &g, SIZE_MAX, 0, GEDRASHIW_REASON_OUTSIDE);
}

/* 13, then 7, then 8, one fault added before the other, also past the record and where no strand is covered. */
static void reasons_refused(void)
{
    for (int k = 0; k < 4; k++) {
        size_t position = k & 1 ? SIZE_MAX : 0;
        struct duplex_given g = fresh(2, 2);
        annotate(&g, 0, C_TO_T);
        for (size_t i = 0; i < 2 && k >> 1; i++) {
            set_counts(0, i, 0, 0);
            set_counts(1, i, 0, 0);
        }
        g.listed = 1;
        g.reads.len = 1; /* a broken run, which is not looked at */
        g.strand[1].of[QUALS].len = 3;
        reason_is("8", &g, position, 8, GEDRASHIW_REASON_REFUSED);
        g.strand[0].of[EVIDENCE].len = 9 * 1025;
        reason_is("7 before 8", &g, position, 7, GEDRASHIW_REASON_REFUSED);
        g.strand[1].of[ERRORS].len = 5;
        reason_is("13 before 7", &g, position, 13, GEDRASHIW_REASON_REFUSED);
        g.strand[1].of[ERRORS].len = 4;
        g.strand[0].pattern = 2;
        reason_is("a pattern of 2", &g, position, 13, GEDRASHIW_REASON_REFUSED);
        g.strand[0].annotated = 0;
        reason_is("evidence that is not looked at", &g, position, 8, GEDRASHIW_REASON_REFUSED);
        g.strand[1].present = 0;
        reason_is("a strand that is not looked at", &g, position, 0,
                  k == 0 ? GEDRASHIW_REASON_SINGLE_STRAND : GEDRASHIW_REASON_OUTSIDE);
    }
}

static void worked_examples(void)
{
    reasons_of_positions();
    reasons_of_records();
    reasons_refused();
    positions_of_document_01();
    ceilings();
    annotated_examples();
    for (int k = 0; k < 4; k++)
        alone(k & 1, k >> 1);
    lengths();
}

/* ---- molecules by chance */

static size_t some_length(void)
{
    return once_in(40) ? 1000 + chance() % 25 : once_in(30) ? 250 + chance() % 12 : once_in(4) ? chance() % 4 : chance() % 40;
}

/* A limit of any size, or one near the strands' lengths. */
static uint16_t some_limit(size_t a, size_t b)
{
    size_t near = (once_in(2) ? a : b) + chance() % 3;
    return (uint16_t)(once_in(3) ? chance() : once_in(3) ? chance() % 300 : near > 0 ? near - 1 : 0);
}

static uint8_t some_byte(uint32_t style, const char *letters)
{
    return style == 0 ? (uint8_t)chance() : (uint8_t)letters[chance() % strlen(letters)];
}

static uint32_t some_number(uint32_t style, int bytes)
{
    uint32_t most = bytes == 2 ? 65535 : 4294967295u;
    uint32_t any = chance() << 16 ^ chance();
    return style == 0 ? 0 : style == 1 ? chance() % 3 : style == 2 ? chance() % 300 : once_in(9) ? most : any & most;
}

static void some_strand(struct duplex_given *g, int s)
{
    static const char *const letters[] = {"", "ACGT", "CTGA", "CCTTGGAAcctgaN", "ACGTNacgtn", "CTN"};
    static const uint32_t qualities[] = {256, 4, 40, 94, 60};
    uint32_t letter = chance() % 6, quality = chance() % 5, depth = once_in(8) ? 0 : 1 + chance() % 3, wrong = chance() % 4;
    size_t n = g->strand[s].of[BASES].len;
    g->strand[s].present = once_in(7) ? 0 : once_in(3) ? (uint8_t)(1 + chance() % 255) : 1;
    if (!once_in(3)) {
        annotate(g, s, (uint8_t)(chance() % 2));
        g->strand[s].annotated = once_in(3) ? (uint8_t)(1 + chance() % 255) : 1;
    }
    for (size_t i = 0; i < n; i++) {
        array_of(s, BASES)[i] = some_byte(letter, letters[letter]);
        array_of(s, QUALS)[i] = (uint8_t)(chance() % qualities[quality]);
        set_counts(s, i, some_number(depth, 2), some_number(wrong, 2));
        set_evidence(s, i, (uint8_t) "\0\1\1\310"[chance() % 4], some_number(chance() % 4, 4), some_number(chance() % 4, 4));
    }
}

static void some_reads(struct duplex_given *g)
{
    static const uint32_t flags[] = {0, 0x41, 0x81, 0x80, 0x40, 0xff7f, 0xffff};
    size_t longest = g->strand[0].of[BASES].len + 5;
    uint32_t count = once_in(60) ? 1023 + chance() % 3 : chance() % 8, style = chance() % 2;
    g->listed = once_in(4) ? (uint8_t)(1 + chance() % 255) : 1;
    for (uint32_t r = 0; r < count; r++) {
        size_t len = chance() % (count > 100 ? 20 : longest), at = g->reads.len + 5;
        add_read(g, flags[chance() % 7], NULL, len);
        for (size_t i = 0; i < len; i++)
            reads[at + i] = some_byte(style, "CTGAACGTN");
    }
    if (once_in(8))
        g->listed = 0;
}

/* One thing that a row may be for. */
static void some_fault(struct duplex_given *g)
{
    int k = (int)(chance() % DUPLEX_INPUTS);
    struct array *in = duplex_input(g, k);
    size_t step = once_in(2) || k == 2 * ARRAYS ? 1 : width[k % ARRAYS];
    if (once_in(5))
        g->strand[chance() % 2].pattern = (uint8_t)(2 + chance() % 254);
    else if (once_in(5))
        g->ceiling = (uint8_t) "\0\1\2\136\137\377"[chance() % 6];
    else if (k < 2 * ARRAYS && once_in(4))
        in->len = (1025 + chance() % 3) * width[k % ARRAYS];
    else if (k == 2 * ARRAYS && in->len > 0 && once_in(2))
        reads[chance() % in->len] ^= (uint8_t)(1 << chance() % 8);
    else if (once_in(2) || in->len < step)
        in->len += step;
    else
        in->len -= step;
}

/* Outputs of exact length, or longer, or one of them shorter by a byte or a position. */
static void some_room(struct duplex_given *g)
{
    set_room(g, MOST_POSITIONS);
    duplex_expected(g, &reckoned);
    for (int k = 0; k < OUTPUTS; k++)
        g->room[k] = reckoned.written[k] + (once_in(2) ? 0 : chance() % 20);
    int k = (int)(chance() % OUTPUTS);
    size_t less = once_in(2) ? 1 : out_width[k];
    if (once_in(9) && reckoned.written[k] >= less)
        g->room[k] = reckoned.written[k] - less;
}

static void by_chance(int cases)
{
    static const int rows[] = {7, 8, 9, 12, 13, 14, 19};
    start_tally();
    for (int c = 0; c < cases; c++) {
        size_t a = some_length(), b = once_in(2) ? a : some_length();
        struct duplex_given g = fresh(a, b);
        some_strand(&g, 0);
        some_strand(&g, 1);
        if (once_in(2))
            g.ceiling = (uint8_t)(LOWEST_CEILING + chance() % (HIGHEST_CEILING - LOWEST_CEILING + 1));
        if (once_in(4))
            g.limit = some_limit(a, b);
        if (once_in(2))
            some_reads(&g);
        for (uint32_t faults = once_in(5) ? 1 + chance() % 3 : 0; faults > 0; faults--)
            some_fault(&g);
        some_room(&g);
        expected("by chance", &g);
    }
    for (int product = 0; product < PRODUCTS; product++)
        all_occurred("by chance", product, rows, 7);
    all_reasons_occurred("by chance");
    printf("by chance: %d cases, %ld refused as 19; in a preview %ld alike, %ld refused as 19 alone\n", cases, refusals[BATCH][19], alike,
           refused_in_a_preview);
}

/* ---- refusals */

/* Two annotated strands and two reads. */
static struct duplex_given sound(size_t positions)
{
    struct duplex_given g = fresh(positions, positions);
    annotate(&g, 0, C_TO_T);
    annotate(&g, 1, G_TO_A);
    read_of(&g, 0x41, "ACGT");
    read_of(&g, 0x81, "");
    return g;
}

/* An array with a position more than it may have, or another number than the strand's others. */
static void whole_positions(const char *name, int k)
{
    static const size_t longer[] = {1025, 1024, 6, 4, 0};
    struct duplex_given g = sound(1024);
    struct strand *s = &g.strand[k / ARRAYS];
    struct array *in = &s->of[k % ARRAYS];
    in->len += width[k % ARRAYS];
    refuses(name, &g, 7);
    for (int n = 0; n < 5; n++) {
        g = sound(5);
        in->len = longer[n] * width[k % ARRAYS];
        refuses(name, &g, longer[n] == 1025 ? 7 : 8);
        s->present = 0;
        takes(name, &g);
    }
}

/* An array whose last position is cut. */
static void cut_positions(const char *name, int k)
{
    for (size_t more = 1; more < width[k % ARRAYS]; more++) {
        struct duplex_given g = sound(5);
        struct strand *s = &g.strand[k / ARRAYS];
        struct array *in = &s->of[k % ARRAYS];
        in->len += more;
        refuses(name, &g, 13);
        in->len -= width[k % ARRAYS];
        refuses(name, &g, 13);
        s->present = 0;
        takes(name, &g);
        s->present = 1;
        s->annotated = 0;
        if (k % ARRAYS == EVIDENCE)
            takes(name, &g);
        else
            refuses(name, &g, 13);
    }
}

static void each_array(void)
{
    static const char *const names[] = {"a_bases", "a_quals", "a_depths", "a_errors", "a_evidence",
                                        "b_bases", "b_quals", "b_depths", "b_errors", "b_evidence"};
    struct duplex_given g = sound(1024);
    takes("1,024 positions", &g);
    for (int k = 0; k < 2 * ARRAYS; k++) {
        whole_positions(names[k], k);
        cut_positions(names[k], k);
    }
    g = sound(1024);
    for (int k = 0; k < ARRAYS; k++)
        g.strand[1].of[k].len = 1025 * width[k];
    refuses("1,025 positions", &g, 7);
    g.strand[1].present = 0;
    takes("1,025 positions of an absent strand", &g);
}

/* ---- limits */

static const uint16_t limits[] = {0, 3, 4, 5, 255, 256, 257, 1023, 1024, 1025, 65535};
static const size_t lengths_tried[] = {255, 256, 257, 1023, 1024, 1025};
enum { LIMITS = sizeof limits / sizeof *limits, LENGTHS = sizeof lengths_tried / sizeof *lengths_tried };

/* The row of strands whose longest array has so many positions, the others four: 7 whatever the limit, then 19; or 8, or none. */
static void limited(const char *name, const struct duplex_given *g, size_t longest, int ragged)
{
    if (longest > MOST_POSITIONS)
        refuses(name, g, 7);
    else if ((longest > 4 ? longest : 4) > g->limit)
        refuses(name, g, 19);
    else if (ragged)
        refuses(name, g, 8);
    else
        takes(name, g);
}

/* One array of so many positions beside others of four, looked at and not. */
static void one_array(int k, uint16_t limit, size_t n)
{
    struct duplex_given g = sound(4);
    struct strand *s = &g.strand[k / ARRAYS];
    g.limit = limit;
    s->of[k % ARRAYS].len = n * width[k % ARRAYS];
    limited("one array", &g, n, 1);
    s->annotated = 0;
    int evidence = k % ARRAYS == EVIDENCE;
    limited("one array, no annotation", &g, evidence ? 4 : n, !evidence);
    s->annotated = 1;
    s->present = 0;
    limited("one array of an absent strand", &g, 4, 0);
    g.strand[1 - k / ARRAYS].present = 0;
    takes("one array, no strands", &g);
}

/* All arrays of one strand, or of both, of so many positions. The shorter strand's record would be within any of these limits. */
static void whole_strands(uint16_t limit, size_t n)
{
    for (int which = 1; which < 4; which++) {
        struct duplex_given g = sound(4);
        g.limit = limit;
        for (int k = 0; k < 2 * ARRAYS; k++)
            if (which >> k / ARRAYS & 1)
                duplex_input(&g, k)->len = n * width[k % ARRAYS];
        set_room(&g, n);
        limited("whole strands", &g, n, 0);
        for (int s = 0; s < 2; s++) {
            g.strand[1 - s].present = 0;
            limited("a whole strand alone", &g, which >> s & 1 ? n : 4, 0);
            g.strand[1 - s].present = 1;
        }
    }
}

/* Each limit takes a strand of so many positions and refuses one of a position more. */
static void each_limit(void)
{
    for (size_t n = 0; n <= MOST_POSITIONS + 1; n++)
        for (size_t more = 0; more < 2; more++) {
            size_t positions = n + more;
            struct duplex_given g = fresh(positions, 1);
            g.limit = (uint16_t)n;
            g.strand[1].present = 0;
            if (positions > MOST_POSITIONS)
                refuses("each limit", &g, 7);
            else if (more > 0)
                refuses("each limit", &g, 19);
            else
                takes("each limit", &g);
        }
}

/* What the preview answers, written out: it takes 256 positions, with outputs of 256 places, and refuses 257, whatever the limit of the
 * other call. */
static void previews(void)
{
    static const uint16_t of_the_batch[] = {256, 257, 1023, 1024, 1025, 65535};
    static const size_t shown[] = {255, 256, 257, 512, 1023, 1024};
    for (int l = 0; l < 6; l++)
        for (int k = 0; k < 6; k++)
            for (int which = 1; which < 4; which++) {
                struct duplex_given g = sound(2);
                for (int a = 0; a < 2 * ARRAYS; a++)
                    if (which >> a / ARRAYS & 1)
                        duplex_input(&g, a)->len = shown[k] * width[a % ARRAYS];
                g.limit = of_the_batch[l];
                set_room(&g, MOST_SHOWN);
                struct duplex_given as_shown = previewed(&g);
                check("a preview", inputs_refused(&as_shown) == (shown[k] > 256 ? 19 : 0), "the two expectations differ");
                long were = refused_in_a_preview;
                duplex_expected(&g, &reckoned);
                run("a preview", &g, &reckoned);
                check("a preview", (refused_in_a_preview > were) == (shown[k] > 256 && shown[k] <= of_the_batch[l]), "the batch's refusals");
            }
}

static void each_size(void)
{
    for (int l = 0; l < LIMITS; l++)
        for (int n = 0; n < LENGTHS; n++) {
            for (int k = 0; k < 2 * ARRAYS; k++)
                one_array(k, limits[l], lengths_tried[n]);
            whole_strands(limits[l], lengths_tried[n]);
        }
}

static void patterns(void)
{
    for (int k = 0; k < 2; k++)
        for (int pattern = 0; pattern < 256; pattern++) {
            struct duplex_given g = sound(2);
            g.strand[k].pattern = (uint8_t)pattern;
            if (pattern > 1)
                refuses("a pattern", &g, 13);
            else
                takes("a pattern", &g);
            g.strand[k].annotated = 0;
            takes("the pattern of no annotation", &g);
            g.strand[k].annotated = 1;
            g.strand[k].present = 0;
            takes("the pattern of an absent strand", &g);
        }
}

/* A run as it is written, refused by 13 where it is broken, in front of, between and behind whole reads. */
static void run_of(const char *name, const char *bytes, size_t len, int broken)
{
    for (int before = 0; before < 3; before++) {
        struct duplex_given g = fresh(4, 4);
        for (int k = 0; k < before; k++)
            read_of(&g, 0x41, "ACGT");
        memcpy(reads + g.reads.len, bytes, len);
        g.reads.len += len;
        g.listed = 1;
        if (broken)
            refuses(name, &g, 13);
        else
            takes(name, &g);
        g.listed = 0;
        takes("a run that is no list", &g);
    }
}

static void many_reads(size_t count, size_t bases, uint8_t number)
{
    struct duplex_given g = fresh(4, 1024);
    for (size_t k = 0; k < count; k++)
        add_read(&g, 0x81, NULL, bases);
    if (number == 0)
        takes("many reads", &g);
    else
        refuses("many reads", &g, number);
    g.strand[0].present = g.strand[1].present = 0;
    if (number == 0)
        takes("many reads, no strands", &g);
    else
        refuses("many reads, no strands", &g, number);
    g.listed = 0;
    takes("many reads, no list", &g);
}

static void runs(void)
{
    run_of("no read more", "", 0, 0);
    run_of("a read of no bases", "0\2\0\0\0", 5, 0);
    run_of("a read of a base", "0\3\0\0\0A", 6, 0);
    run_of("a tag", "0", 1, 1);
    run_of("half a length", "0\2", 2, 1);
    run_of("no value", "0\2\0", 3, 1);
    run_of("no flags", "0\0\0", 3, 1);
    run_of("half the flags", "0\1\0\0", 4, 1);
    run_of("half the flags, cut", "0\2\0\0", 4, 1);
    run_of("a base cut", "0\3\0\0\0", 5, 1);
    run_of("its length's high byte", "0\2\1\0\0", 5, 1);
    run_of("another tag", "1\2\0\0\0", 5, 1);
    run_of("the list's tag", "\x2f\0\0", 3, 1);
    run_of("a base more", "0\2\0\0\0A", 6, 1);
    many_reads(1023, 3, 0);
    many_reads(1024, 3, 0);
    many_reads(1025, 3, 9);
    many_reads(1024, 2000, 0); /* beyond 65,536 bytes, and beyond the record */
    many_reads(20, 65533, 0);
    many_reads(5000, 0, 9);
}

/* Each kind, annotated or not: outputs of exact length, longer, and short by a byte or more. */
static void output_lengths(void)
{
    for (int c = 0; c < 3 * 4; c++) {
        static const int presence[] = {1, 2, 3};
        struct duplex_given g = fresh(3, 3);
        g.strand[0].present = presence[c / 4] & 1;
        g.strand[1].present = presence[c / 4] >> 1;
        for (int s = 0; s < 2; s++)
            if (c >> s & 1)
                annotate(&g, s, (uint8_t)s);
        duplex_expected(&g, &reckoned);
        size_t exact[OUTPUTS];
        memcpy(exact, reckoned.written, sizeof exact);
        memcpy(g.room, exact, sizeof exact);
        takes("outputs of exact length", &g);
        for (int k = 0; k < OUTPUTS; k++) {
            for (size_t more = 1; more <= 2 * out_width[k]; more++) {
                g.room[k] = exact[k] + more;
                takes("a longer output", &g);
            }
            for (size_t room = 0; room < exact[k]; room++) {
                g.room[k] = room;
                refuses("a shorter output", &g, 12);
            }
            g.room[k] = exact[k];
        }
    }
    struct duplex_given g = sound(1024);
    takes("1,024 places", &g);
    for (int k = 0; k < OUTPUTS; k++) {
        g.room[k]--;
        refuses("a byte short of 1,024 places", &g, 12);
        g.room[k]++;
    }
}

/* A fault that a row is for, in one of three ways. */
static void add_fault(struct duplex_given *g, uint8_t row, int way)
{
    static const int first_long[] = {QUALS, BASES, EVIDENCE}, ragged[] = {ERRORS, QUALS, EVIDENCE};
    static const int short_output[] = {ERRORS_OUT, BASES_OUT, B_EVIDENCE_OUT};
    static const uint8_t outside[] = {LOWEST_CEILING - 1, HIGHEST_CEILING + 1, 0};
    struct strand *one = &g->strand[way % 2], *other = &g->strand[1 - way % 2];
    if (row == 9)
        for (int k = 0; k < 1025; k++)
            read_of(g, 0, "A");
    else if (row == 13 && way == 0)
        one->of[DEPTHS].len -= 1;
    else if (row == 13 && way == 1)
        one->pattern = 2;
    else if (row == 13)
        reads[g->reads.len++] = READ_TAG;
    else if (row == 14)
        g->ceiling = outside[way];
    else if (row == 19 && way < 2)
        g->limit = (uint16_t)(3 * way);
    else if (row == 19) {
        g->limit = 256;
        other->of[ERRORS].len = 257 * width[ERRORS];
    } else if (row == 7)
        for (int k = first_long[way]; k < ARRAYS; k++)
            other->of[k].len = 1025 * width[k];
    else if (row == 8)
        one->of[ragged[way]].len -= width[ragged[way]];
    else
        g->room[short_output[way]] -= 1;
}

/* Every choice of faults: the first in the order 13, 14, 7, 19, 8, 9, 12 is answered. */
static void several_faults(void)
{
    static const uint8_t order[] = {13, 14, 7, 19, 8, 9, 12}, added[] = {9, 13, 7, 19, 8, 12, 14};
    enum { FAULTS = sizeof order };
    for (int faults = 0; faults < 1 << FAULTS; faults++)
        for (int way = 0; way < 3; way++) {
            struct duplex_given g = sound(4);
            int met[GEDRASHIW_OVER_LIMIT + 1] = {0}, first = 0;
            for (int k = 0; k < FAULTS; k++)
                met[order[k]] = faults >> k & 1;
            for (int k = 0; k < FAULTS; k++)
                if (met[added[k]])
                    add_fault(&g, added[k], way);
            while (first < FAULTS && !met[order[first]])
                first++;
            if (first == FAULTS)
                takes("no fault", &g);
            else
                refuses("several faults", &g, order[first]);
            /* Of strands that are absent and a list that is none, none of these is a fault, but the ceiling: a limit is one of strands. */
            g.strand[0].present = g.strand[1].present = g.listed = 0;
            if (met[14])
                refuses("several faults, not looked at but the ceiling", &g, 14);
            else
                takes("several faults, not looked at", &g);
        }
}

/* Every number as the ceiling, of two strands, of each alone and of none. */
static void each_ceiling(void)
{
    for (int ceiling = 0; ceiling < 256; ceiling++)
        for (int present = 0; present < 4; present++) {
            struct duplex_given g = sound(4);
            set_base(0, 0, 'A', (uint8_t)ceiling);
            set_base(1, 0, 'A', 0);
            set_base(0, 1, 'A', 255);
            g.ceiling = (uint8_t)ceiling;
            g.strand[0].present = present & 1;
            g.strand[1].present = present >> 1;
            if (ceiling >= LOWEST_CEILING && ceiling <= HIGHEST_CEILING)
                takes("a ceiling within 3 to 93", &g);
            else
                refuses("a ceiling outside 3 to 93", &g, 14);
        }
}

/* Whatever lies where nothing is looked at, the answer and the outputs are the same. */
static void not_looked_at(void)
{
    for (int c = 0; c < 300; c++) {
        int s = c % 2;
        struct duplex_given g = fresh(6, 6);
        g.limit = (uint16_t)(once_in(2) ? 6 + chance() % 3 : MOST_POSITIONS);
        some_strand(&g, 1 - s);
        g.strand[1 - s].present = 1;
        for (int k = 0; k < ARRAYS; k++) {
            g.strand[s].of[k].len = chance() % (9 * MOST);
            for (size_t i = 0; i < g.strand[s].of[k].len; i++)
                array_of(s, k)[i] = (uint8_t)chance();
        }
        g.strand[s].present = 0;
        g.strand[s].annotated = (uint8_t)chance();
        g.strand[s].pattern = (uint8_t)chance();
        g.reads.len = chance() % 5000;
        for (size_t i = 0; i < g.reads.len; i++)
            reads[i] = (uint8_t)chance();
        if (!g.strand[1 - s].annotated) {
            g.strand[1 - s].pattern = (uint8_t)chance();
            g.strand[1 - s].of[EVIDENCE].len = chance() % (9 * MOST);
        }
        takes("not looked at", &g);
    }
}

/* ---- the fixed list of encoded molecules (tests/lines), and the lines that a reference over the Rust printed for it */

/* The next text of the file: a refusal's line, or the line behind the header. */
static char *next_line(FILE *lines)
{
    static char line[1 << 16];
    if (fgets(line, sizeof line, lines) == NULL || (strcmp(line, HEADER) == 0 && fgets(line, sizeof line, lines) == NULL))
        exit(2);
    return line;
}

/* What the entries give, as text: the combination's own outputs, and the metrics of the record's own strands. */
static void say_entries(struct text *t, const struct duplex_given *g, const char *gate)
{
    uint8_t *out[OUTPUTS], metrics[GEDRASHIW_METRICS_BYTES];
    uint32_t words[10];
    for (int k = 0; k < OUTPUTS; k++)
        out[k] = outputs[k].at;
    t->len = 0;
    struct gedrashiw_duplex_record r = duplex_call(g, out);
    if (r.refused != 0) {
        say(t, "refused %u\n", r.refused);
        return;
    }
    if (r.kind == NO_RECORD) {
        say(t, "none\n");
        return;
    }
    struct metrics_given m = metrics_of(g, r.kind, r.positions, out[BASES_OUT], out[ERRORS_OUT]);
    check("the metrics of a record", metrics_call(&m, metrics) == 0, "refused");
    for (int k = 0; k < 10; k++)
        words[k] = number_at(metrics + 4 * k, 4);
    say_record(t, r.kind, gate, r.positions, out[BASES_OUT], out[QUALS_OUT], out[ERRORS_OUT], words);
}

enum { COMPARED, UNSEEN, OF_THRESHOLDS };

/* A molecule and its line. Answers whether they were compared, or why not. */
static int compare_molecule(const char *name, const uint8_t *bytes, size_t len, const char *line)
{
    static struct text said;
    struct molecule split;
    unsigned refused = 0;
    char gate[8] = "";
    sscanf(line, "refused %u", &refused);
    if (!split_molecule(bytes, len, &split)) {
        check(name, refused == 13, "cannot be split");
        return UNSEEN;
    }
    if (refused >= 1 && refused <= 4)
        return OF_THRESHOLDS;
    expected(name, &split.given);
    sscanf(line, "%*s %7s", gate);
    say_entries(&said, &split.given, gate);
    checks++;
    if (strcmp(said.at, line) != 0) {
        failures++;
        printf("%s: %sexpected: %s", name, said.at, line);
    }
    return COMPARED;
}

static void fixed_list(const char *molecules, const char *lines)
{
    static const int rows[] = {7, 8, 9, 13};
    static uint8_t bytes[1 << 18];
    uint8_t size[4];
    char name[64];
    int number = 0, counts[3] = {0};
    FILE *m = fopen(molecules, "rb"), *l = fopen(lines, "r");
    if (m == NULL || l == NULL) {
        fail(molecules, "cannot be read");
        return;
    }
    start_tally();
    while (fread(size, 1, 4, m) == 4) {
        size_t len = number_at(size, 4);
        if (len > sizeof bytes || fread(bytes, 1, len, m) != len)
            exit(2);
        snprintf(name, sizeof name, "the fixed list, molecule %d", ++number);
        counts[compare_molecule(name, bytes, len, next_line(l))]++;
    }
    all_occurred(molecules, BATCH, rows, 4);
    printf("the fixed list: %d molecules compared; %d refused as 13 by what no entry sees, %d by their thresholds; in a preview %ld alike\n",
           counts[COMPARED], counts[UNSEEN], counts[OF_THRESHOLDS], alike);
    fclose(m);
    fclose(l);
}

/* With the files of encoded molecules and lines as words. */
int main(int words, char **word)
{
    make_blocks();
    if (words == 3)
        fixed_list(word[1], word[2]);
    else
        fail("usage", "duplex_host MOLECULES LINES");
    worked_examples();
    by_chance(4000);
    each_array();
    patterns();
    runs();
    output_lengths();
    each_size();
    each_limit();
    previews();
    several_faults();
    each_ceiling();
    not_looked_at();
    nulls_were_passed("gedrashiw_duplex_consensus", DUPLEX_INPUTS + OUTPUTS, nulls[BATCH]);
    nulls_were_passed("gedrashiw_preview_consensus", DUPLEX_INPUTS + OUTPUTS, nulls[PREVIEW]);
    tell_nulls(PRODUCTS * (DUPLEX_INPUTS + OUTPUTS) + DUPLEX_INPUTS - 1); /* the reason takes a strand's arrays, but no run and no outputs */
    printf("gedrashiw_duplex_consensus, gedrashiw_preview_consensus, gedrashiw_no_call_reason: %ld checks, %ld failures\n", checks, failures);
    return failures == 0 ? 0 : 1;
}
