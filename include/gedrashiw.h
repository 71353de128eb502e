/* Gedrashiw's entry points for C and C++ programs on x86-64 Linux: everything from the reads' partition to the duplex record, its
 * metrics and its methylation tags. Link libgedrashiw.a (`pkg-config --cflags --libs gedrashiw`, after bin/install).
 *
 *     Reads             thresholds, partition by strand, read gate, flags
 *     A strand          its depths and rate, its annotation from source reads, padding, evidence
 *     The duplex record the combination, the consensus gate, the record's depths
 *     Why a base is N   the reason at a position of the record
 *     Metrics           aD to cE and nc
 *     Methylation tags  restored sequence, MM, ML, counts
 *     One position      what two bases, a quality, a count, a reference base say
 *     As bytes          combination, preview, reasons, metrics and methylation tags over arrays of bytes, low byte first
 *
 * An array is a pointer and the number of its elements, in this order. What is told of a molecule in a few bytes, and what a lab chooses,
 * is a struct that is passed by value. The entries keep no pointer, allocate nothing and hold no state, so that threads may call them side
 * by side. None takes more than GEDRASHIW_STACK_BYTES of stack, and the preview's no more than GEDRASHIW_PREVIEW_STACK_BYTES: so it was
 * measured, not proved.
 *
 * What the caller must see to, since no contract can: each pointer is valid for its number of elements, for reading, and outputs for
 * writing; it is aligned as its type asks; and no output overlaps an input or another output. With the number 0 a pointer is not
 * followed, whatever it is: a null pointer will do.
 *
 * An entry is total: whatever else it is given, it answers, and each fault is a row of the table of refusals. A refused entry answers
 * the row's number alone, every other member of its answer being 0, and writes nothing. Where it is not refused, the places of an
 * output past what was written are as they were.
 */
#ifndef GEDRASHIW_H
#define GEDRASHIW_H

#include <stddef.h>
#include <stdint.h>

#ifdef __cplusplus
extern "C" {
#endif

/* ==== Refusals: 0, or the number of the one row that comes first. Each entry names its rows in the order in which it tests them. ==== */
enum gedrashiw_refusal {
    GEDRASHIW_OK = 0,
    GEDRASHIW_NO_THRESHOLDS = 1,       /* no thresholds */
    GEDRASHIW_TOO_MANY_THRESHOLDS = 2, /* more than 3 thresholds */
    GEDRASHIW_XY_ABOVE_TOTAL = 3,      /* the second threshold is above the first */
    GEDRASHIW_YX_ABOVE_XY = 4,         /* the third threshold is above the second */
    GEDRASHIW_NO_MI = 5,               /* a read has no MI */
    GEDRASHIW_NO_STRAND = 6,           /* an MI does not end in /A or /B */
    GEDRASHIW_TOO_LONG = 7,            /* an array of a strand or record, a sequence, or a length to pad to, has over 1,024 positions */
    GEDRASHIW_RAGGED = 8,              /* arrays of one strand or of one record, or evidence and bases, differ in length */
    GEDRASHIW_TOO_MANY_READS = 9,      /* a list has over 1,024 reads */
    GEDRASHIW_PART_OUTSIDE = 10,       /* the part of a read leaves its bytes */
    GEDRASHIW_BELOW_LENGTH = 11,       /* padding to less than the present length */
    GEDRASHIW_OUTPUT_TOO_SHORT = 12,   /* an output has fewer places than are written */
    GEDRASHIW_BROKEN = 13,             /* a number that stands for no choice; of bytes: a count that does not fit, or a broken run */
    GEDRASHIW_CEILING_OUTSIDE = 14,    /* a quality ceiling outside 3 to 93 */
    GEDRASHIW_OVER_LIMIT = 19          /* an array of a strand is over the limit of positions that a lab chose */
};

/* ==== Choices. Whether something is so is a number too: 0 no, any other yes. ==== */

#define GEDRASHIW_MAX_POSITIONS 1024
#define GEDRASHIW_MAX_READS 1024
#define GEDRASHIW_STACK_BYTES 65536
#define GEDRASHIW_PREVIEW_POSITIONS 256
#define GEDRASHIW_PREVIEW_STACK_BYTES 16384

/* The annotation of a strand, or its conversion pattern: there GEDRASHIW_NOT_ANNOTATED is refused as 13. So are numbers above 2. */
enum gedrashiw_annotation {
    GEDRASHIW_NOT_ANNOTATED = 0,
    GEDRASHIW_C_TO_T = 1,
    GEDRASHIW_G_TO_A = 2
};

/* The chemistry. Numbers above 2 are refused as 13. */
enum gedrashiw_mode {
    GEDRASHIW_DISABLED = 0,
    GEDRASHIW_EM_SEQ = 1,
    GEDRASHIW_TAPS = 2
};

/* What a consensus read is written as. Numbers above 2 are refused as 13. */
enum gedrashiw_read_type {
    GEDRASHIW_FRAGMENT = 0,
    GEDRASHIW_R1 = 1,
    GEDRASHIW_R2 = 2
};

/* The strand that an MI names. */
enum gedrashiw_strand {
    GEDRASHIW_UNNAMED = 0,
    GEDRASHIW_A = 1,
    GEDRASHIW_B = 2
};

/* What a duplex record is made of. */
enum gedrashiw_kind {
    GEDRASHIW_NO_RECORD = 0, /* no strand counts, and nothing is written */
    GEDRASHIW_A_ALONE = 1,
    GEDRASHIW_B_ALONE = 2,   /* stored as the first strand: its evidence goes to the outputs of A */
    GEDRASHIW_BOTH_STRANDS = 3
};

/* ==== What a lab chooses. Every entry that combines strands takes it, and tests it whatever record there would be. ==== */

#define GEDRASHIW_MIN_CEILING 3
#define GEDRASHIW_MAX_CEILING 93

/* ceiling   the highest quality of a record of two strands, from 3 to 93; another is refused as 14. 93 is that of fgumi-consensus and of
 *           duplexline; some variant callers take nothing above 60. Only qualities depend on it: at a lower ceiling each is the smaller of
 *           that ceiling and what it is at a higher one. A record of one strand keeps its qualities, whatever the ceiling.
 * limit     the most positions of a strand, any number from 0: where an array that is looked at has more, the call is refused as 19,
 *           directly after 7, so that a limit above 1,024 is as 1,024. The lengths of the arrays count, not that of the record. 1,024 is the
 *           batch product's, 256 the preview's. Nothing else depends on it: of strands whose arrays are within two limits a call answers and
 *           writes the same at both, refusals included. */
struct gedrashiw_settings {
    uint8_t ceiling;
    uint16_t limit;
};

/* ==== Answers that several entries have. `refused` is 0, or the refusal's number. ==== */

/* How many elements were written to each output. */
struct gedrashiw_count {
    uint8_t refused;
    size_t count;
};

/* The number that was asked for. */
struct gedrashiw_number {
    uint8_t refused;
    uint32_t number;
};

/* ==== Reads ==== */

struct gedrashiw_thresholds {
    uint8_t refused;
    uint32_t total, xy, yx;
};

/* The thresholds of read counts: one to three, the last repeated where some are missing. 1, 2, 3, 4. */
struct gedrashiw_thresholds gedrashiw_validate_min_reads(const uint32_t *min_reads, size_t min_reads_len);

/* The third of them: the less covered strand's. 1, 2, 3, 4. */
struct gedrashiw_number gedrashiw_min_yx_reads_for(const uint32_t *min_reads, size_t min_reads_len);

/* 1 where that is 0, so that a molecule seen on one strand may give a consensus; else 0. 1, 2, 3, 4. */
struct gedrashiw_number gedrashiw_allows_single_strand_consensus(const uint32_t *min_reads, size_t min_reads_len);

/* Where a read's MI text lies. */
struct gedrashiw_mi_part {
    size_t present; /* 0: the read has no MI */
    size_t offset, length;
};

struct gedrashiw_partition {
    uint8_t refused;
    uint8_t base_mi;       /* 0: there is no read; 1: the part of bytes that follows is the first read's MI without /A or /B */
    size_t a, b;           /* so many reads of each strand */
    size_t offset, length;
};

/* The numbers of the reads (0, 1, ..) of strand A and of strand B, each in arrival order. Each output must hold as many places as there
 * are reads. 9, 10, 12, then 5 or 6 by the first read at fault. */
struct gedrashiw_partition
gedrashiw_partition_records_by_strand(const struct gedrashiw_mi_part *reads, size_t reads_len,
                                      const uint8_t *bytes, size_t bytes_len,
                                      uint16_t *a_out, size_t a_out_len,
                                      uint16_t *b_out, size_t b_out_len);

/* The strand that an MI names: enum gedrashiw_strand. */
uint8_t gedrashiw_extract_strand_from_mi_bytes(const uint8_t *mi_bytes, size_t mi_bytes_len);

/* The read gate, over the flags of each strand's reads: 1 where the numbers of paired first reads reach the thresholds, else 0.
 * 1, 2, 3, 4, then 9. */
struct gedrashiw_number
gedrashiw_has_minimum_number_of_reads(const uint16_t *a_reads, size_t a_reads_len,
                                      const uint16_t *b_reads, size_t b_reads_len,
                                      const uint32_t *min_reads, size_t min_reads_len);

/* 1 where all reads, by their flags, have one orientation, and of no reads; else 0. 9. */
struct gedrashiw_number gedrashiw_are_all_same_strand(const uint16_t *reads, size_t reads_len);

/* What a read's flags say, 0 or 1. An unpaired read is neither a first nor a last one. */
uint8_t gedrashiw_is_paired(uint16_t flags);
uint8_t gedrashiw_is_paired_r1(uint16_t flags);
uint8_t gedrashiw_is_paired_r2(uint16_t flags);

/* The flags that a consensus read is written with: 4, 77 or 141. 13. */
struct gedrashiw_number gedrashiw_written_flags(uint8_t read_type);

/* The read name: prefix, colon, UMI. 12. */
struct gedrashiw_count
gedrashiw_write_consensus_read_name(uint8_t *out, size_t out_len,
                                    const uint8_t *read_name_prefix, size_t read_name_prefix_len,
                                    const uint8_t *umi, size_t umi_len);

/* ==== A strand: bases and qualities, depths and errors, and perhaps an annotation, whose evidence is an informative mark (0 no, any
 * other byte yes) and the numbers of reads unconverted and converted, at each position. Marks are written as 0 or 1. Without an
 * annotation the evidence is not looked at, nor its lengths, and nothing goes to its outputs. ==== */

/* The largest and the smallest depth, 0 over no positions. 7. */
struct gedrashiw_number gedrashiw_max_depth(const uint16_t *depths, size_t depths_len);
struct gedrashiw_number gedrashiw_min_depth(const uint16_t *depths, size_t depths_len);

/* All errors over all depths, none of them capped: the bits of an IEEE 754 binary32, 0 where the depths sum to 0. 7, 8. */
struct gedrashiw_number
gedrashiw_calculate_error_rate(const uint16_t *depths, size_t depths_len,
                               const uint16_t *errors, size_t errors_len);

/* A source read: its SAM flags, and where its bases lie in the bytes that are given with the list. */
struct gedrashiw_source_read {
    uint16_t flags;
    size_t offset, length;
};

/* The evidence of a strand of consensus_len positions, from its reads and the reference: marked where the reference base is the
 * pattern's, and counted there over the reads' bases that are aligned.
 *
 * reference            a byte for each position, as the reads were sequenced; 0, or past its end: none
 * aligned              the mark of a base (0: not aligned) lies where the base lies in bytes; past its end: not aligned
 * count_all_positions  yes: every base of every read is counted
 *
 * 13, then 7, 9, 10, 12. */
struct gedrashiw_count
gedrashiw_annotate_simplex_methylation(size_t consensus_len,
                                       const struct gedrashiw_source_read *reads, size_t reads_len,
                                       const uint8_t *bytes, size_t bytes_len,
                                       const uint8_t *reference, size_t reference_len,
                                       uint8_t pattern,
                                       const uint8_t *aligned, size_t aligned_len,
                                       uint8_t count_all_positions,
                                       uint8_t *marks_out, size_t marks_out_len,
                                       uint32_t *unconverted_out, size_t unconverted_out_len,
                                       uint32_t *converted_out, size_t converted_out_len);

/* The strand with positions added on its left (yes) or its right, up to new_length, of this base and quality, depth 0 and error 0. To
 * the same length all is copied; to more the annotation is dropped. Answers the annotation that is left. 13, then 7, 8, 11, 12. */
struct gedrashiw_number
gedrashiw_padded(const uint8_t *bases, size_t bases_len,
                 const uint8_t *quals, size_t quals_len,
                 const uint16_t *depths, size_t depths_len,
                 const uint16_t *errors, size_t errors_len,
                 uint8_t annotation,
                 const uint8_t *marks, size_t marks_len,
                 const uint32_t *unconverted, size_t unconverted_len,
                 const uint32_t *converted, size_t converted_len,
                 size_t new_length, uint8_t left, uint8_t base, uint8_t qual,
                 uint8_t *bases_out, size_t bases_out_len,
                 uint8_t *quals_out, size_t quals_out_len,
                 uint16_t *depths_out, size_t depths_out_len,
                 uint16_t *errors_out, size_t errors_out_len,
                 uint8_t *marks_out, size_t marks_out_len,
                 uint32_t *unconverted_out, size_t unconverted_out_len,
                 uint32_t *converted_out, size_t converted_out_len);

/* The same with the base n and the quality 2. */
struct gedrashiw_number
gedrashiw_padded_default(const uint8_t *bases, size_t bases_len,
                         const uint8_t *quals, size_t quals_len,
                         const uint16_t *depths, size_t depths_len,
                         const uint16_t *errors, size_t errors_len,
                         uint8_t annotation,
                         const uint8_t *marks, size_t marks_len,
                         const uint32_t *unconverted, size_t unconverted_len,
                         const uint32_t *converted, size_t converted_len,
                         size_t new_length, uint8_t left,
                         uint8_t *bases_out, size_t bases_out_len,
                         uint8_t *quals_out, size_t quals_out_len,
                         uint16_t *depths_out, size_t depths_out_len,
                         uint16_t *errors_out, size_t errors_out_len,
                         uint8_t *marks_out, size_t marks_out_len,
                         uint32_t *unconverted_out, size_t unconverted_out_len,
                         uint32_t *converted_out, size_t converted_out_len);

/* Evidence cleared in place (mark 0, both counts 0) where it is not informative; other marks become 1. 7, 8. */
struct gedrashiw_count
gedrashiw_gate_to_informative(uint8_t *marks, size_t marks_len,
                              uint32_t *unconverted, size_t unconverted_len,
                              uint32_t *converted, size_t converted_len);

/* The first len positions of evidence, or all where it has no more. 7, 8, 12. */
struct gedrashiw_count
gedrashiw_truncate(const uint8_t *marks, size_t marks_len,
                   const uint32_t *unconverted, size_t unconverted_len,
                   const uint32_t *converted, size_t converted_len,
                   size_t len,
                   uint8_t *marks_out, size_t marks_out_len,
                   uint32_t *unconverted_out, size_t unconverted_out_len,
                   uint32_t *converted_out, size_t converted_out_len);

/* ==== The duplex record ==== */

/* What a record is: its kind is an enum gedrashiw_kind, and so many positions were written. */
struct gedrashiw_duplex_record {
    uint8_t refused;
    uint8_t kind;
    size_t positions;
};

/* What is told of a strand that may be missing.
 *
 * present      no: the strand is not there, and nothing more of it is looked at, nor its annotation or the lengths of its arrays
 * annotation   of enum gedrashiw_annotation */
struct gedrashiw_told_strand {
    uint8_t present, annotation;
};

/* What is told of a molecule.
 *
 * listed   no: there is no list of source reads, reads and bytes are not looked at, and the errors are estimated;
 *          yes: the errors are counted over the list; without a read they are 0 */
struct gedrashiw_told_molecule {
    struct gedrashiw_told_strand a, b;
    uint8_t listed;
    struct gedrashiw_settings settings;
};

/* The duplex record of two strands, of one or of none.
 *
 * The length of the record is the shorter of the strands that are there, and a strand counts only with a depth above 0 within it. One
 * strand that counts alone is copied whole, with its evidence cleared where it is not informative. What is written, of as many
 * positions as the record has: bases, qualities, errors; to the outputs a_ the evidence of A where A is in the record and annotated, or
 * of B where B alone is the record; to the outputs b_ the evidence of B where both are the record and B is annotated. The other outputs
 * of evidence are not looked at. 13, then 14, 7, 19, 8, 9, 10, 12. */
struct gedrashiw_duplex_record
gedrashiw_duplex_consensus_typed(struct gedrashiw_told_molecule molecule,
                                 const uint8_t *a_bases, size_t a_bases_len,
                                 const uint8_t *a_quals, size_t a_quals_len,
                                 const uint16_t *a_depths, size_t a_depths_len,
                                 const uint16_t *a_errors, size_t a_errors_len,
                                 const uint8_t *a_marks, size_t a_marks_len,
                                 const uint32_t *a_unconverted, size_t a_unconverted_len,
                                 const uint32_t *a_converted, size_t a_converted_len,
                                 const uint8_t *b_bases, size_t b_bases_len,
                                 const uint8_t *b_quals, size_t b_quals_len,
                                 const uint16_t *b_depths, size_t b_depths_len,
                                 const uint16_t *b_errors, size_t b_errors_len,
                                 const uint8_t *b_marks, size_t b_marks_len,
                                 const uint32_t *b_unconverted, size_t b_unconverted_len,
                                 const uint32_t *b_converted, size_t b_converted_len,
                                 const struct gedrashiw_source_read *reads, size_t reads_len,
                                 const uint8_t *bytes, size_t bytes_len,
                                 uint8_t *bases_out, size_t bases_out_len,
                                 uint8_t *quals_out, size_t quals_out_len,
                                 uint16_t *errors_out, size_t errors_out_len,
                                 uint8_t *a_marks_out, size_t a_marks_out_len,
                                 uint32_t *a_unconverted_out, size_t a_unconverted_out_len,
                                 uint32_t *a_converted_out, size_t a_converted_out_len,
                                 uint8_t *b_marks_out, size_t b_marks_out_len,
                                 uint32_t *b_unconverted_out, size_t b_unconverted_out_len,
                                 uint32_t *b_converted_out, size_t b_converted_out_len);

/* Its parts, for a caller that has its own way with coverage and reads. The combination of two strands without annotation over their
 * shorter length; where reads are listed every error is 0, and counting is left to the caller. 14, then 7, 19, 8, 12. */
struct gedrashiw_count
gedrashiw_combine_strands(uint8_t listed, struct gedrashiw_settings settings,
                          const uint8_t *a_bases, size_t a_bases_len,
                          const uint8_t *a_quals, size_t a_quals_len,
                          const uint16_t *a_depths, size_t a_depths_len,
                          const uint16_t *a_errors, size_t a_errors_len,
                          const uint8_t *b_bases, size_t b_bases_len,
                          const uint8_t *b_quals, size_t b_quals_len,
                          const uint16_t *b_depths, size_t b_depths_len,
                          const uint16_t *b_errors, size_t b_errors_len,
                          uint8_t *bases_out, size_t bases_out_len,
                          uint8_t *quals_out, size_t quals_out_len,
                          uint16_t *errors_out, size_t errors_out_len);

/* What is told of two strands that are there: the annotation of each, of enum gedrashiw_annotation; whether reads are listed, as for
 * gedrashiw_combine_strands. */
struct gedrashiw_told_strands {
    uint8_t a_annotation, b_annotation;
    uint8_t listed;
    struct gedrashiw_settings settings;
};

/* The same of strands that may be annotated. 13, then 14, 7, 19, 8, 12. */
struct gedrashiw_count
gedrashiw_combine_strands_annotated(struct gedrashiw_told_strands strands,
                                    const uint8_t *a_bases, size_t a_bases_len,
                                    const uint8_t *a_quals, size_t a_quals_len,
                                    const uint16_t *a_depths, size_t a_depths_len,
                                    const uint16_t *a_errors, size_t a_errors_len,
                                    const uint8_t *a_marks, size_t a_marks_len,
                                    const uint32_t *a_unconverted, size_t a_unconverted_len,
                                    const uint32_t *a_converted, size_t a_converted_len,
                                    const uint8_t *b_bases, size_t b_bases_len,
                                    const uint8_t *b_quals, size_t b_quals_len,
                                    const uint16_t *b_depths, size_t b_depths_len,
                                    const uint16_t *b_errors, size_t b_errors_len,
                                    const uint8_t *b_marks, size_t b_marks_len,
                                    const uint32_t *b_unconverted, size_t b_unconverted_len,
                                    const uint32_t *b_converted, size_t b_converted_len,
                                    uint8_t *bases_out, size_t bases_out_len,
                                    uint8_t *quals_out, size_t quals_out_len,
                                    uint16_t *errors_out, size_t errors_out_len,
                                    uint8_t *a_marks_out, size_t a_marks_out_len,
                                    uint32_t *a_unconverted_out, size_t a_unconverted_out_len,
                                    uint32_t *a_converted_out, size_t a_converted_out_len,
                                    uint8_t *b_marks_out, size_t b_marks_out_len,
                                    uint32_t *b_unconverted_out, size_t b_unconverted_out_len,
                                    uint32_t *b_converted_out, size_t b_converted_out_len);

/* A strand alone as a record: copied, its evidence cleared where it is not informative. 13, then 7, 8, 12. */
struct gedrashiw_count
gedrashiw_gated_single_strand(const uint8_t *bases, size_t bases_len,
                              const uint8_t *quals, size_t quals_len,
                              const uint16_t *depths, size_t depths_len,
                              const uint16_t *errors, size_t errors_len,
                              uint8_t annotation,
                              const uint8_t *marks, size_t marks_len,
                              const uint32_t *unconverted, size_t unconverted_len,
                              const uint32_t *converted, size_t converted_len,
                              uint8_t *bases_out, size_t bases_out_len,
                              uint8_t *quals_out, size_t quals_out_len,
                              uint16_t *errors_out, size_t errors_out_len,
                              uint8_t *marks_out, size_t marks_out_len,
                              uint32_t *unconverted_out, size_t unconverted_out_len,
                              uint32_t *converted_out, size_t converted_out_len);

/* The consensus gate of a record of so many positions: 1 where its strands' largest depths there, uncapped, reach the thresholds, else
 * 0. An absent strand has no depths. 1, 2, 3, 4, then 7. */
struct gedrashiw_number
gedrashiw_duplex_consensus_has_minimum_reads(size_t positions,
                                             const uint16_t *ab_depths, size_t ab_depths_len,
                                             const uint16_t *ba_depths, size_t ba_depths_len,
                                             const uint32_t *min_reads, size_t min_reads_len);

/* The depths of both strands at each of the record's positions, uncapped, each sum held to 65,535; past a strand's end it adds 0. 7, 12. */
struct gedrashiw_count
gedrashiw_combined_depths(size_t positions,
                          const uint16_t *ab, size_t ab_len,
                          const uint16_t *ba, size_t ba_len,
                          uint16_t *out, size_t out_len);

struct gedrashiw_range {
    uint8_t refused;
    uint16_t min, max;
};

/* The smallest and the largest of these, 0 over no positions. 7. */
struct gedrashiw_range
gedrashiw_depth_range(size_t positions,
                      const uint16_t *ab, size_t ab_len,
                      const uint16_t *ba, size_t ba_len);

/* ==== Why a base is N ==== */

/* What is said of a position of the record. A position of two strands shows N exactly where one of the seven reasons is answered, and
 * any other base exactly where the answer is GEDRASHIW_REASON_CALLED. Of the seven, the first that holds in this order is answered. N is
 * the byte N alone, n is not; bases are equal where their bytes are. */
enum gedrashiw_no_call_reason {
    GEDRASHIW_REASON_REFUSED = 0,         /* there is no answer: `refused` says why */
    GEDRASHIW_REASON_OUTSIDE = 1,         /* the position lies past the record, or there is no record */
    GEDRASHIW_REASON_SINGLE_STRAND = 2,   /* the record is of one strand, whose base it shows, N or not */
    GEDRASHIW_REASON_CALLED = 3,          /* the position shows a base */
    GEDRASHIW_REASON_A_NO_CALL = 4,       /* A alone is N */
    GEDRASHIW_REASON_B_NO_CALL = 5,       /* B alone is N */
    GEDRASHIW_REASON_BOTH_NO_CALL = 6,    /* both are N */
    GEDRASHIW_REASON_EQUAL_QUALITIES = 7, /* without a methylation call the bases differ, at equal qualities */
    GEDRASHIW_REASON_CLOSE_QUALITIES = 8, /* the same, at qualities that differ by 1 or 2 */
    GEDRASHIW_REASON_LOW_SUM = 9,         /* the sum of the qualities counts, and is at most 2 */
    GEDRASHIW_REASON_LOW_CONFIRMING = 10  /* at a methylation call the confirming strand's quality counts alone, and is at most 2 */
};

/* `reason` is an enum gedrashiw_no_call_reason. */
struct gedrashiw_reason {
    uint8_t refused;
    uint8_t reason;
};

/* Why the record that gedrashiw_duplex_consensus_typed makes of the same strands shows N at a position: any number, counted from 0.
 * Source reads change no base, a ceiling makes none N, and a limit refuses and does no more, so none of these is taken. Strands are tested
 * before all else, also where there is no record. 13, then 7, 8. */
struct gedrashiw_reason
gedrashiw_no_call_reason_typed(uint8_t a_present,
                               const uint8_t *a_bases, size_t a_bases_len,
                               const uint8_t *a_quals, size_t a_quals_len,
                               const uint16_t *a_depths, size_t a_depths_len,
                               const uint16_t *a_errors, size_t a_errors_len,
                               uint8_t a_annotation,
                               const uint8_t *a_marks, size_t a_marks_len,
                               const uint32_t *a_unconverted, size_t a_unconverted_len,
                               const uint32_t *a_converted, size_t a_converted_len,
                               uint8_t b_present,
                               const uint8_t *b_bases, size_t b_bases_len,
                               const uint8_t *b_quals, size_t b_quals_len,
                               const uint16_t *b_depths, size_t b_depths_len,
                               const uint16_t *b_errors, size_t b_errors_len,
                               uint8_t b_annotation,
                               const uint8_t *b_marks, size_t b_marks_len,
                               const uint32_t *b_unconverted, size_t b_unconverted_len,
                               const uint32_t *b_converted, size_t b_converted_len,
                               size_t position);

/* ==== Metrics. A rate is the 32 bits of an IEEE 754 binary32, never a NaN. ==== */

/* A strand's largest and smallest depth, and the sums of its depths and errors, each depth and error held to 32,767 first. */
struct gedrashiw_figures {
    uint8_t refused;
    uint32_t largest, smallest, depths, errors;
};

/* 7, 8. */
struct gedrashiw_figures
gedrashiw_strand_metrics(const uint16_t *depths, size_t depths_len,
                         const uint16_t *errors, size_t errors_len);

/* Largest depth, smallest depth and error rate of the first strand (a), the second (b) and both (c), and the
 * number of no-calls: positions whose base is N and whose depth in both together, as cD takes it, is above 0. So padding is none. */
struct gedrashiw_duplex_figures {
    uint8_t refused;
    uint32_t aD, aM, aE, bD, bM, bE, cD, cM, cE, nc;
};

/* The metrics of a record. second: whether there is a second strand; if not, b_depths and b_errors are not looked at, nor their lengths,
 * and bD, bM and bE are 0. bases and errors are the record's. A strand may be longer or shorter than the record. 7, 8. */
struct gedrashiw_duplex_figures
gedrashiw_duplex_metrics(const uint16_t *a_depths, size_t a_depths_len,
                         const uint16_t *a_errors, size_t a_errors_len,
                         uint8_t second,
                         const uint16_t *b_depths, size_t b_depths_len,
                         const uint16_t *b_errors, size_t b_errors_len,
                         const uint8_t *bases, size_t bases_len,
                         const uint16_t *errors, size_t errors_len);

/* The rate of two sums: 0 where the depth is 0; else both go to binary32, nearest, ties to even, and are divided. */
uint32_t gedrashiw_rate_bits(uint32_t errors, uint32_t depth);

/* ==== Methylation tags ==== */

/* Restores a sequence in place: at each informative position T becomes C, or A becomes G, in any case. 13, then 7, 8. */
struct gedrashiw_count
gedrashiw_restore_unconverted_bases(uint8_t *consensus_bases, size_t consensus_bases_len,
                                    uint8_t pattern,
                                    const uint8_t *marks, size_t marks_len);

/* A strand's bases, restored by its own annotation; without one a copy. 13, then 7, 8, 12. */
struct gedrashiw_count
gedrashiw_methylation_strand_bases(const uint8_t *bases, size_t bases_len,
                                   uint8_t annotation,
                                   const uint8_t *marks, size_t marks_len,
                                   uint8_t *out, size_t out_len);

struct gedrashiw_tags {
    uint8_t refused;
    uint8_t tagged; /* 0: nothing is called, or the mode is disabled: there is no tag */
    size_t mm, ml;  /* so many bytes of each */
};

/* A strand's MM text and ML bytes against a sequence that is restored already. MM has at most 5 bytes and 5 for each position, ML one
 * for each position. 13, then 7, 8, 12. */
struct gedrashiw_tags
gedrashiw_build_mm_ml_tags(const uint8_t *consensus_bases, size_t consensus_bases_len,
                           uint8_t pattern,
                           const uint8_t *marks, size_t marks_len,
                           const uint32_t *unconverted, size_t unconverted_len,
                           const uint32_t *converted, size_t converted_len,
                           uint8_t mode,
                           uint8_t *mm, size_t mm_len,
                           uint8_t *ml, size_t ml_len);

/* The MM text alone; ml is 0. 13, then 7, 8, 12. */
struct gedrashiw_tags
gedrashiw_build_mm_tag_no_ml(const uint8_t *consensus_bases, size_t consensus_bases_len,
                             uint8_t pattern,
                             const uint8_t *marks, size_t marks_len,
                             const uint32_t *unconverted, size_t unconverted_len,
                             const uint32_t *converted, size_t converted_len,
                             uint8_t mode,
                             uint8_t *mm, size_t mm_len);

struct gedrashiw_duplex_tags {
    uint8_t refused;
    size_t positions;          /* of the sequence, and of each array of counts that is there */
    size_t aMm, bMm, mm, ml;   /* so many bytes of each; 0: the tag is not there */
};

/* A record's sequence, restored by the annotations of its strands, and its tags: each strand's MM text, the MM and ML of both with C to T
 * groups first, each strand's counts held to 32,767, and the counts of both summed. Of a strand without annotation nothing is looked at,
 * and nothing goes to its outputs; the summed counts are written in any case. A text has at most 5 bytes and 5 for each
 * position, that of both twice as many, and ML 2 for each position. 13, then 7, 8, 12. */
struct gedrashiw_duplex_tags
gedrashiw_duplex_methylation_tags(const uint8_t *bases, size_t bases_len,
                                  uint8_t a_annotation,
                                  const uint8_t *a_marks, size_t a_marks_len,
                                  const uint32_t *a_unconverted, size_t a_unconverted_len,
                                  const uint32_t *a_converted, size_t a_converted_len,
                                  uint8_t b_annotation,
                                  const uint8_t *b_marks, size_t b_marks_len,
                                  const uint32_t *b_unconverted, size_t b_unconverted_len,
                                  const uint32_t *b_converted, size_t b_converted_len,
                                  uint8_t mode,
                                  uint8_t *seq_out, size_t seq_out_len,
                                  uint8_t *a_mm_out, size_t a_mm_out_len,
                                  uint8_t *b_mm_out, size_t b_mm_out_len,
                                  uint8_t *mm_out, size_t mm_out_len,
                                  uint8_t *ml_out, size_t ml_out_len,
                                  uint16_t *a_unconverted_out, size_t a_unconverted_out_len,
                                  uint16_t *a_converted_out, size_t a_converted_out_len,
                                  uint16_t *b_unconverted_out, size_t b_unconverted_out_len,
                                  uint16_t *b_converted_out, size_t b_converted_out_len,
                                  uint16_t *unconverted_out, size_t unconverted_out_len,
                                  uint16_t *converted_out, size_t converted_out_len);

/* A strand's counts as a tag holds them, each held to 32,767. 7, 12. */
struct gedrashiw_count
gedrashiw_unconverted_counts(const uint32_t *unconverted, size_t unconverted_len,
                             uint16_t *out, size_t out_len);
struct gedrashiw_count
gedrashiw_converted_counts(const uint32_t *converted, size_t converted_len,
                           uint16_t *out, size_t out_len);

/* The counts of two strands summed over so many positions: each sum held to 4,294,967,295 and then to 32,767. An array that ends before
 * a position adds 0 there. 7, 12. */
struct gedrashiw_count
gedrashiw_summed_counts(size_t positions,
                        const uint32_t *a, size_t a_len,
                        const uint32_t *b, size_t b_len,
                        uint16_t *out, size_t out_len);

/* ==== One position ==== */

/* 1 where a source read's base is an error beside the consensus base, else 0: it differs, and neither is N. */
uint8_t gedrashiw_is_error(uint8_t source_base, uint8_t consensus_base);

struct gedrashiw_call {
    uint8_t pattern;   /* 0: there is no call, and the others are 0 */
    uint8_t call;      /* the base of the strand of that pattern, as it was given */
    uint8_t confirmed; /* the called base, C or G */
};

/* The methylation call at a position, of the base of the C-to-T strand and that of the G-to-A strand. */
struct gedrashiw_call gedrashiw_molecule_call(uint8_t ct_base, uint8_t ga_base);

/* A sum of qualities held to 2 and a ceiling. 14. */
struct gedrashiw_number gedrashiw_cap_quality(uint16_t score, uint8_t ceiling);

/* A depth, or a strand's errors, held to 32,767; and a record's errors, which an estimate may put below zero, held to 0..32,767. */
uint32_t gedrashiw_clamp_per_base_to_fgbio_short(uint16_t depth);
uint16_t gedrashiw_clamp_combined_error_to_fgbio_short(int32_t error_sum);

/* 1 for a mode with conversions, 0 for disabled. 13. */
struct gedrashiw_number gedrashiw_is_enabled(uint8_t mode);

/* The conversion pattern that a read's flags say. */
uint8_t gedrashiw_from_read_flags(uint16_t read_flags);

struct gedrashiw_letters {
    uint8_t refused;
    uint8_t reference, unconverted, converted;
};

/* A pattern's letters: C C T, or G G A. 13. */
struct gedrashiw_letters gedrashiw_bases(uint8_t pattern);

/* 1 where a position of the reference is in a CpG, else 0: on the top strand a C before a G, on the bottom strand a G behind a C, in any
 * case. */
uint8_t gedrashiw_is_cpg_context(const uint8_t *ref_seq, size_t ref_seq_len, size_t pos, uint8_t is_top_strand);

/* ==== As bytes: combination, preview, reasons, metrics and methylation tags where numbers of more than one byte are passed as bytes, low
 * byte first, whatever the host's own order. A length is a number of bytes, and bytes need no alignment. ==== */

/* The bytes that gedrashiw_metrics writes. */
#define GEDRASHIW_METRICS_BYTES 40

/* The metrics of a duplex record, as bytes.
 *
 * a_depths, a_errors   the first strand's depth and errors at each position: 16-bit numbers, two bytes each
 * second               0: there is no second strand, and nothing of b_depths and b_errors is looked at, nor their lengths;
 *                      any other number: there is one
 * b_depths, b_errors   the second strand's, as the first's
 * bases, errors        the record's bases, a byte each, and its errors, 16-bit numbers
 *
 * Lengths are in bytes: ten positions are an a_depths_len of 20 and a bases_len of 10. A strand may be longer or shorter than
 * the record.
 *
 * out   at least 40 bytes. On success the first 40 are ten 32-bit numbers:
 *           at  0  aD   largest depth of the first strand        at 24  cD   largest depth of both
 *           at  4  aM   smallest                                 at 28  cM   smallest
 *           at  8  aE   error rate                               at 32  cE   error rate
 *           at 12  bD   largest depth of the second strand       at 36  nc   number of no-calls
 *           at 16  bM   smallest
 *           at 20  bE   error rate
 *       A rate is the 32 bits of an IEEE 754 binary32, never a NaN. A no-call is a position whose base is N and whose depth in both
 *       strands together, as cD takes it, is above 0: padding is none. Bytes past these 40 are left as they were.
 *
 * Answers 0, or 13, 7, 8 or 12.
 */
uint8_t gedrashiw_metrics(const uint8_t *a_depths, size_t a_depths_len,
                          const uint8_t *a_errors, size_t a_errors_len,
                          uint8_t second,
                          const uint8_t *b_depths, size_t b_depths_len,
                          const uint8_t *b_errors, size_t b_errors_len,
                          const uint8_t *bases, size_t bases_len,
                          const uint8_t *errors, size_t errors_len,
                          uint8_t *out, size_t out_len);

/* The bytes of a position: of depths, errors and counts, and of evidence. */
#define GEDRASHIW_NUMBER_BYTES 2
#define GEDRASHIW_EVIDENCE_BYTES 9

/* What is told of a strand whose arrays are bytes.
 *
 * present     0: the strand is not there, and nothing more of it is looked at, nor the lengths of its arrays;
 *             any other number: it is
 * annotated   0: it has no annotation, and pattern and the strand's evidence are not looked at, nor its length;
 *             any other number: it has one
 * pattern     the annotation's conversion pattern, as an encoded molecule has it. 0: C to T; 1: G to A; above 1: refused as 13 */
struct gedrashiw_told_encoded_strand {
    uint8_t present, annotated, pattern;
};

/* What is told of a molecule whose arrays are bytes.
 *
 * listed   0: there is no list of source reads, reads is not looked at, nor reads_len, and the errors are estimated;
 *          any other number: there is one, and the errors are counted of it; without a read they are 0 */
struct gedrashiw_told_encoded_molecule {
    struct gedrashiw_told_encoded_strand a, b;
    uint8_t listed;
    struct gedrashiw_settings settings;
};

/* The duplex record of two strands, of one or of none, as bytes.
 *
 * Of strand A, and of strand B likewise:
 *
 * a_bases       a byte each
 * a_quals       a byte each
 * a_depths      16-bit numbers, two bytes each
 * a_errors      16-bit numbers, two bytes each
 * a_evidence    the annotation's evidence, nine bytes a position:
 *                   at 0  the informative mark: 0 no, any other byte yes
 *                   at 1  reads unconverted, a 32-bit number
 *                   at 5  reads converted, a 32-bit number
 *
 * Lengths are in bytes: ten positions are an a_bases_len and an a_quals_len of 10, an a_depths_len and an a_errors_len of 20, and
 * an a_evidence_len of 90. The arrays of one strand have the same number of positions, at most the settings' limit and at most 1,024; the
 * two strands may differ.
 *
 * reads    the list, at most 1,024 reads: one after another, with nothing between, before or behind them,
 *              at 0  the byte 0x30
 *              at 1  n, a 16-bit number: the bytes that follow it, at least 2
 *              at 3  the read's SAM flags, a 16-bit number
 *              at 5  its bases, n - 2 bytes
 *          A run that ends within a read, or with another first byte or an n below 2, is broken.
 *
 * What is written where refused is 0, of as many positions as the record has:
 *
 * bases_out        a byte each
 * quals_out        a byte each
 * errors_out       16-bit numbers, two bytes each
 * a_evidence_out   in the layout of a_evidence, with marks 0 or 1: the evidence of A, where A is in the record and annotated, or of
 *                  B, where B alone is the record and annotated; else it is not looked at, nor its length
 * b_evidence_out   likewise the evidence of B, where both strands are the record and B is annotated; else it is not looked at
 *
 * Bytes of an output past the written ones are left as they were; with no record nothing is written. A record has at most 1,024
 * positions, so 1,024, 1,024, 2,048, 9,216 and 9,216 bytes are always enough.
 *
 * Answers with refused 0, or 13, 14, 7, 19, 8, 9 or 12.
 */
struct gedrashiw_duplex_record
gedrashiw_duplex_consensus(struct gedrashiw_told_encoded_molecule molecule,
                           const uint8_t *a_bases, size_t a_bases_len,
                           const uint8_t *a_quals, size_t a_quals_len,
                           const uint8_t *a_depths, size_t a_depths_len,
                           const uint8_t *a_errors, size_t a_errors_len,
                           const uint8_t *a_evidence, size_t a_evidence_len,
                           const uint8_t *b_bases, size_t b_bases_len,
                           const uint8_t *b_quals, size_t b_quals_len,
                           const uint8_t *b_depths, size_t b_depths_len,
                           const uint8_t *b_errors, size_t b_errors_len,
                           const uint8_t *b_evidence, size_t b_evidence_len,
                           const uint8_t *reads, size_t reads_len,
                           uint8_t *bases_out, size_t bases_out_len,
                           uint8_t *quals_out, size_t quals_out_len,
                           uint8_t *errors_out, size_t errors_out_len,
                           uint8_t *a_evidence_out, size_t a_evidence_out_len,
                           uint8_t *b_evidence_out, size_t b_evidence_out_len);

/* The same for a live preview, which shows no more than 256 positions: gedrashiw_duplex_consensus at the smaller of the settings' limit and
 * GEDRASHIW_PREVIEW_POSITIONS, so that a strand with an array of 257 to 1,024 positions is refused as 19. Of strands within 256 it answers and
 * writes what gedrashiw_duplex_consensus does by the same settings, refusals included.
 *
 * A record has at most 256 positions, so outputs of 256, 256, 512, 2,304 and 2,304 bytes are always enough. It takes no more than
 * GEDRASHIW_PREVIEW_STACK_BYTES of stack.
 *
 * Answers with refused 0, or 13, 14, 7, 19, 8, 9 or 12.
 */
struct gedrashiw_duplex_record
gedrashiw_preview_consensus(struct gedrashiw_told_encoded_molecule molecule,
                            const uint8_t *a_bases, size_t a_bases_len,
                            const uint8_t *a_quals, size_t a_quals_len,
                            const uint8_t *a_depths, size_t a_depths_len,
                            const uint8_t *a_errors, size_t a_errors_len,
                            const uint8_t *a_evidence, size_t a_evidence_len,
                            const uint8_t *b_bases, size_t b_bases_len,
                            const uint8_t *b_quals, size_t b_quals_len,
                            const uint8_t *b_depths, size_t b_depths_len,
                            const uint8_t *b_errors, size_t b_errors_len,
                            const uint8_t *b_evidence, size_t b_evidence_len,
                            const uint8_t *reads, size_t reads_len,
                            uint8_t *bases_out, size_t bases_out_len,
                            uint8_t *quals_out, size_t quals_out_len,
                            uint8_t *errors_out, size_t errors_out_len,
                            uint8_t *a_evidence_out, size_t a_evidence_out_len,
                            uint8_t *b_evidence_out, size_t b_evidence_out_len);

/* Why the record that gedrashiw_duplex_consensus makes of the same strands, with the same arrays, shows N at a position: any number,
 * counted from 0. Of each strand the first three numbers are those of struct gedrashiw_told_encoded_strand. Source reads change no base,
 * a ceiling makes none N, and a limit refuses and does no more, so none of these is taken.
 *
 * Answers with refused 0 and one of enum gedrashiw_no_call_reason, or with refused 13, 7 or 8 and reason 0.
 */
struct gedrashiw_reason
gedrashiw_no_call_reason(uint8_t a_present, uint8_t a_annotated, uint8_t a_pattern,
                         const uint8_t *a_bases, size_t a_bases_len,
                         const uint8_t *a_quals, size_t a_quals_len,
                         const uint8_t *a_depths, size_t a_depths_len,
                         const uint8_t *a_errors, size_t a_errors_len,
                         const uint8_t *a_evidence, size_t a_evidence_len,
                         uint8_t b_present, uint8_t b_annotated, uint8_t b_pattern,
                         const uint8_t *b_bases, size_t b_bases_len,
                         const uint8_t *b_quals, size_t b_quals_len,
                         const uint8_t *b_depths, size_t b_depths_len,
                         const uint8_t *b_errors, size_t b_errors_len,
                         const uint8_t *b_evidence, size_t b_evidence_len,
                         size_t position);

/* The methylation tags of a record, as bytes: gedrashiw_duplex_methylation_tags on what gedrashiw_duplex_consensus takes and writes.
 *
 * bases         the record's, a byte each
 *
 * Of the record's first strand, and of its second likewise:
 *
 * a_annotated   0: it has no annotation, and a_pattern and a_evidence are not looked at, nor a_evidence_len; nothing goes to its outputs;
 *               any other number: it has one
 * a_pattern     0: C to T; 1: G to A; above 1: refused as 13. The numbers are not those of enum gedrashiw_annotation
 * a_evidence    nine bytes a position, as gedrashiw_duplex_consensus takes them and writes them to a_evidence_out
 *
 * mode          the chemistry, of enum gedrashiw_mode
 *
 * The evidence of a strand has as many positions as the bases, at most 1,024: ten are a bases_len of 10 and an a_evidence_len of 90.
 *
 * What is written where refused is 0:
 *
 * seq_out             the sequence, restored by the annotations, a byte each
 * a_mm_out, b_mm_out  each strand's MM text
 * mm_out, ml_out      the MM text of both, C to T groups first, and the ML bytes in its order
 * a_unconverted_out, a_converted_out, b_unconverted_out, b_converted_out
 *                     each strand's counts, held to 32,767: 16-bit numbers, two bytes each, which a tag of 16-bit numbers holds as they stand
 * unconverted_out, converted_out
 *                     the counts of both strands summed, likewise; written in any case
 *
 * Bytes of an output past the written ones are left as they were. For n positions n bytes of sequence, 5 + 5 n of a strand's text, twice
 * that of both, 2 n of ML and 2 n of each output of counts are always enough.
 *
 * Answers with refused 0, or 13, 7, 8 or 12; positions is a number of positions also of the counts, not of their bytes.
 */
struct gedrashiw_duplex_tags
gedrashiw_methylation_tags(const uint8_t *bases, size_t bases_len,
                           uint8_t a_annotated, uint8_t a_pattern,
                           const uint8_t *a_evidence, size_t a_evidence_len,
                           uint8_t b_annotated, uint8_t b_pattern,
                           const uint8_t *b_evidence, size_t b_evidence_len,
                           uint8_t mode,
                           uint8_t *seq_out, size_t seq_out_len,
                           uint8_t *a_mm_out, size_t a_mm_out_len,
                           uint8_t *b_mm_out, size_t b_mm_out_len,
                           uint8_t *mm_out, size_t mm_out_len,
                           uint8_t *ml_out, size_t ml_out_len,
                           uint8_t *a_unconverted_out, size_t a_unconverted_out_len,
                           uint8_t *a_converted_out, size_t a_converted_out_len,
                           uint8_t *b_unconverted_out, size_t b_unconverted_out_len,
                           uint8_t *b_converted_out, size_t b_converted_out_len,
                           uint8_t *unconverted_out, size_t unconverted_out_len,
                           uint8_t *converted_out, size_t converted_out_len);

#ifdef __cplusplus
}
#endif

#endif
