//! The library's entry points, each declared once, with a safe function of the same name that takes slices, or places: the only unsafe
//! code of this crate but for one block, where vectors that a call has filled get their length. An array is a pointer and the number of
//! its elements. Where a reply's `refused` is not 0, it is the refusal's number.
#![expect(clippy::too_many_arguments, reason = "the entry points take all arrays one by one")]
use crate::duplex_caller::MiPart;
use crate::settings::Settings;
use crate::vanilla_caller::SourceRead;
use std::mem::MaybeUninit;

/// Of a strand that may be missing. Its annotation is a number: 0 none, 1 C to T, 2 G to A.
#[repr(C)]
pub(crate) struct ToldStrand {
    pub present: u8,
    pub annotation: u8,
}

#[repr(C)]
pub(crate) struct ToldMolecule {
    pub a: ToldStrand,
    pub b: ToldStrand,
    pub listed: u8,
    pub settings: Settings,
}

/// Of two strands that are there.
#[repr(C)]
pub(crate) struct ToldStrands {
    pub a_annotation: u8,
    pub b_annotation: u8,
    pub listed: u8,
    pub settings: Settings,
}

/// Of a strand whose arrays are bytes. Its pattern is 0 C to T, 1 G to A.
#[repr(C)]
pub(crate) struct ToldEncodedStrand {
    pub present: u8,
    pub annotated: u8,
    pub pattern: u8,
}

#[repr(C)]
pub(crate) struct ToldEncodedMolecule {
    pub a: ToldEncodedStrand,
    pub b: ToldEncodedStrand,
    pub listed: u8,
    pub settings: Settings,
}

#[repr(C)]
pub(crate) struct DuplexRecord {
    pub refused: u8,
    pub kind: u8,
    pub positions: usize,
}

/// `reason` is 0 where the call was refused.
#[repr(C)]
pub(crate) struct Reason {
    pub refused: u8,
    pub reason: u8,
}

#[repr(C)]
pub(crate) struct Count {
    pub refused: u8,
    pub count: usize,
}

#[repr(C)]
pub(crate) struct Number {
    pub refused: u8,
    pub number: u32,
}

#[repr(C)]
pub(crate) struct Thresholds {
    pub refused: u8,
    pub total: u32,
    pub xy: u32,
    pub yx: u32,
}

/// `refused` is never anything but 0 here: a pattern always has its bases.
#[repr(C)]
pub(crate) struct Bases {
    pub refused: u8,
    pub reference: u8,
    pub unconverted: u8,
    pub converted: u8,
}

/// Where `pattern` is 0, there is no call.
#[repr(C)]
pub(crate) struct Call {
    pub pattern: u8,
    pub call: u8,
    pub confirmed: u8,
}

#[repr(C)]
pub(crate) struct Partition {
    pub refused: u8,
    pub base_mi: u8,
    pub a: usize,
    pub b: usize,
    pub offset: usize,
    pub length: usize,
}

#[repr(C)]
pub(crate) struct Range {
    pub refused: u8,
    pub min: u16,
    pub max: u16,
}

#[repr(C)]
pub(crate) struct Figures {
    pub refused: u8,
    pub largest: u32,
    pub smallest: u32,
    pub depths: u32,
    pub errors: u32,
}

/// The rates are their bits.
#[repr(C)]
#[expect(non_snake_case, reason = "the names of the tags")]
pub(crate) struct Metrics {
    pub refused: u8,
    pub aD: u32,
    pub aM: u32,
    pub aE: u32,
    pub bD: u32,
    pub bM: u32,
    pub bE: u32,
    pub cD: u32,
    pub cM: u32,
    pub cE: u32,
    pub nc: u32,
}

#[repr(C)]
pub(crate) struct Tags {
    pub refused: u8,
    pub tagged: u8,
    pub mm: usize,
    pub ml: usize,
}

#[repr(C)]
pub(crate) struct DuplexTags {
    pub refused: u8,
    pub positions: usize,
    pub a_mm: usize,
    pub b_mm: usize,
    pub mm: usize,
    pub ml: usize,
}

/// The entry points that make a record of bytes take the same: a molecule, the arrays of A, those of B, a run of reads, and the outputs.
#[rustfmt::skip]
pub(crate) type RecordOfBytes = fn(
    ToldEncodedMolecule,
    &[u8], &[u8], &[u8], &[u8], &[u8],
    &[u8], &[u8], &[u8], &[u8], &[u8],
    &[u8],
    &mut [u8], &mut [u8], &mut [u8], &mut [u8], &mut [u8],
) -> DuplexRecord;

/// Places that an entry point writes to: a slice's, or the room of a vector, where no values are yet. The library is linked as machine
/// code, so that a place without a value is to it one with any.
pub(crate) struct Places<'a, T>(&'a mut [MaybeUninit<T>]);

impl<'a, T: Copy> Places<'a, T> {
    /// A slice's.
    pub(crate) fn of(slice: &'a mut [T]) -> Self {
        // SAFETY: both types have one layout, and an entry point, to which alone the places are lent, writes values only.
        Self(unsafe { &mut *(std::ptr::from_mut(slice) as *mut [MaybeUninit<T>]) })
    }

    /// The room of a vector.
    pub(crate) fn room(vector: &'a mut Vec<T>) -> Self {
        Self(vector.spare_capacity_mut())
    }
}

/// Declares an entry point, and a safe function over it: a slice is passed as its pointer and its length. It is inlined, as are the calls
/// that take a few nanoseconds: a program has one call to make and not three.
macro_rules! entry {
    ($(fn $name:ident($($params:tt)*) -> $reply:ty;)*) => { $(entry!(@ $name $reply; [] [] []; $($params)*,);)* };
    (@ $name:ident $reply:ty; [$($given:tt)*] [$($declared:tt)*] [$($passed:tt)*]; $p:ident: &mut [$t:ty], $($rest:tt)*) => {
        entry!(@ $name $reply; [$($given)* $p: &mut [$t],] [$($declared)* _: *mut $t, _: usize,]
            [$($passed)* $p.as_mut_ptr(), $p.len(),]; $($rest)*);
    };
    (@ $name:ident $reply:ty; [$($given:tt)*] [$($declared:tt)*] [$($passed:tt)*]; $p:ident: &[$t:ty], $($rest:tt)*) => {
        entry!(@ $name $reply; [$($given)* $p: &[$t],] [$($declared)* _: *const $t, _: usize,]
            [$($passed)* $p.as_ptr(), $p.len(),]; $($rest)*);
    };
    (@ $name:ident $reply:ty; [$($given:tt)*] [$($declared:tt)*] [$($passed:tt)*]; $p:ident: Places<$t:ty>, $($rest:tt)*) => {
        entry!(@ $name $reply; [$($given)* $p: Places<$t>,] [$($declared)* _: *mut $t, _: usize,]
            [$($passed)* $p.0.as_mut_ptr().cast::<$t>(), $p.0.len(),]; $($rest)*);
    };
    (@ $name:ident $reply:ty; [$($given:tt)*] [$($declared:tt)*] [$($passed:tt)*]; $p:ident: $t:ty, $($rest:tt)*) => {
        entry!(@ $name $reply; [$($given)* $p: $t,] [$($declared)* _: $t,] [$($passed)* $p,]; $($rest)*);
    };
    (@ $name:ident $reply:ty; [$($given:tt)*] [$($declared:tt)*] [$($passed:tt)*]; $(,)?) => {
        #[inline]
        pub(crate) fn $name($($given)*) -> $reply {
            unsafe extern "C" {
                fn $name($($declared)*) -> $reply;
            }
            // SAFETY: each pointer and length are those of one slice, so not null, and no output overlaps another slice. The entry
            // point takes any values, keeps no pointer and writes within the outputs, and values only.
            unsafe { $name($($passed)*) }
        }
    };
}

// Numbers and names.
entry! {
    fn gedrashiw_cap_quality(score: u16, ceiling: u8) -> Number;
    fn gedrashiw_clamp_per_base_to_fgbio_short(depth: u16) -> u32;
    fn gedrashiw_clamp_combined_error_to_fgbio_short(error_sum: i32) -> u16;
    fn gedrashiw_rate_bits(errors: u32, depth: u32) -> u32;
    fn gedrashiw_calculate_error_rate(depths: &[u16], errors: &[u16]) -> Number;
    fn gedrashiw_write_consensus_read_name(out: &mut [u8], read_name_prefix: &[u8], umi: &[u8]) -> Count;
    fn gedrashiw_is_enabled(mode: u8) -> Number;
    fn gedrashiw_from_read_flags(read_flags: u16) -> u8;
    fn gedrashiw_bases(pattern: u8) -> Bases;
    fn gedrashiw_is_cpg_context(ref_seq: &[u8], pos: usize, is_top_strand: u8) -> u8;
    fn gedrashiw_validate_min_reads(min_reads: &[u32]) -> Thresholds;
    fn gedrashiw_min_yx_reads_for(min_reads: &[u32]) -> Number;
    fn gedrashiw_allows_single_strand_consensus(min_reads: &[u32]) -> Number;
    fn gedrashiw_written_flags(read_type: u8) -> Number;
    fn gedrashiw_is_paired(flags: u16) -> u8;
    fn gedrashiw_is_paired_r1(flags: u16) -> u8;
    fn gedrashiw_is_paired_r2(flags: u16) -> u8;
    fn gedrashiw_extract_strand_from_mi_bytes(mi_bytes: &[u8]) -> u8;
    fn gedrashiw_is_error(source_base: u8, consensus_base: u8) -> u8;
    fn gedrashiw_molecule_call(ct_base: u8, ga_base: u8) -> Call;
}

// Reads and gates.
entry! {
    fn gedrashiw_has_minimum_number_of_reads(a_reads: &[u16], b_reads: &[u16], min_reads: &[u32]) -> Number;
    fn gedrashiw_are_all_same_strand(reads: &[u16]) -> Number;
    fn gedrashiw_partition_records_by_strand(reads: &[MiPart], bytes: &[u8], a_out: &mut [u16], b_out: &mut [u16]) -> Partition;
    fn gedrashiw_duplex_consensus_has_minimum_reads(
        positions: usize, ab_depths: &[u16], ba_depths: &[u16], min_reads: &[u32]) -> Number;
}

// Strands, depths and metrics.
entry! {
    fn gedrashiw_max_depth(depths: &[u16]) -> Number;
    fn gedrashiw_min_depth(depths: &[u16]) -> Number;
    fn gedrashiw_padded(
        bases: &[u8], quals: &[u8], depths: &[u16], errors: &[u16],
        annotation: u8, marks: &[u8], unconverted: &[u32], converted: &[u32],
        new_length: usize, left: u8, base: u8, qual: u8,
        bases_out: Places<u8>, quals_out: Places<u8>, depths_out: Places<u16>, errors_out: Places<u16>,
        marks_out: Places<u8>, unconverted_out: Places<u32>, converted_out: Places<u32>) -> Number;
    fn gedrashiw_padded_default(
        bases: &[u8], quals: &[u8], depths: &[u16], errors: &[u16],
        annotation: u8, marks: &[u8], unconverted: &[u32], converted: &[u32],
        new_length: usize, left: u8,
        bases_out: Places<u8>, quals_out: Places<u8>, depths_out: Places<u16>, errors_out: Places<u16>,
        marks_out: Places<u8>, unconverted_out: Places<u32>, converted_out: Places<u32>) -> Number;
    fn gedrashiw_gate_to_informative(marks: &mut [u8], unconverted: &mut [u32], converted: &mut [u32]) -> Count;
    fn gedrashiw_truncate(
        marks: &[u8], unconverted: &[u32], converted: &[u32], len: usize,
        marks_out: &mut [u8], unconverted_out: &mut [u32], converted_out: &mut [u32]) -> Count;
    fn gedrashiw_unconverted_counts(unconverted: &[u32], out: &mut [u16]) -> Count;
    fn gedrashiw_converted_counts(converted: &[u32], out: &mut [u16]) -> Count;
    fn gedrashiw_summed_counts(positions: usize, a: &[u32], b: &[u32], out: &mut [u16]) -> Count;
    fn gedrashiw_combined_depths(positions: usize, ab: &[u16], ba: &[u16], out: &mut [u16]) -> Count;
    fn gedrashiw_depth_range(positions: usize, ab: &[u16], ba: &[u16]) -> Range;
    fn gedrashiw_strand_metrics(depths: &[u16], errors: &[u16]) -> Figures;
    fn gedrashiw_duplex_metrics(
        a_depths: &[u16], a_errors: &[u16], second: u8, b_depths: &[u16], b_errors: &[u16],
        bases: &[u8], errors: &[u16]) -> Metrics;
}

// The combination of strands.
entry! {
    fn gedrashiw_combine_strands(
        listed: u8, settings: Settings,
        a_bases: &[u8], a_quals: &[u8], a_depths: &[u16], a_errors: &[u16],
        b_bases: &[u8], b_quals: &[u8], b_depths: &[u16], b_errors: &[u16],
        bases_out: &mut [u8], quals_out: &mut [u8], errors_out: &mut [u16]) -> Count;
    fn gedrashiw_combine_strands_annotated(
        strands: ToldStrands,
        a_bases: &[u8], a_quals: &[u8], a_depths: &[u16], a_errors: &[u16],
        a_marks: &[u8], a_unconverted: &[u32], a_converted: &[u32],
        b_bases: &[u8], b_quals: &[u8], b_depths: &[u16], b_errors: &[u16],
        b_marks: &[u8], b_unconverted: &[u32], b_converted: &[u32],
        bases_out: &mut [u8], quals_out: &mut [u8], errors_out: &mut [u16],
        a_marks_out: &mut [u8], a_unconverted_out: &mut [u32], a_converted_out: &mut [u32],
        b_marks_out: &mut [u8], b_unconverted_out: &mut [u32], b_converted_out: &mut [u32]) -> Count;
    fn gedrashiw_gated_single_strand(
        bases: &[u8], quals: &[u8], depths: &[u16], errors: &[u16],
        annotation: u8, marks: &[u8], unconverted: &[u32], converted: &[u32],
        bases_out: &mut [u8], quals_out: &mut [u8], errors_out: &mut [u16],
        marks_out: &mut [u8], unconverted_out: &mut [u32], converted_out: &mut [u32]) -> Count;
    fn gedrashiw_duplex_consensus_typed(
        molecule: ToldMolecule,
        a_bases: &[u8], a_quals: &[u8], a_depths: &[u16], a_errors: &[u16],
        a_marks: &[u8], a_unconverted: &[u32], a_converted: &[u32],
        b_bases: &[u8], b_quals: &[u8], b_depths: &[u16], b_errors: &[u16],
        b_marks: &[u8], b_unconverted: &[u32], b_converted: &[u32],
        reads: &[SourceRead], bytes: &[u8],
        bases_out: &mut [u8], quals_out: &mut [u8], errors_out: &mut [u16],
        a_marks_out: &mut [u8], a_unconverted_out: &mut [u32], a_converted_out: &mut [u32],
        b_marks_out: &mut [u8], b_unconverted_out: &mut [u32], b_converted_out: &mut [u32]) -> DuplexRecord;
    fn gedrashiw_no_call_reason_typed(
        a_present: u8, a_bases: &[u8], a_quals: &[u8], a_depths: &[u16], a_errors: &[u16],
        a_annotation: u8, a_marks: &[u8], a_unconverted: &[u32], a_converted: &[u32],
        b_present: u8, b_bases: &[u8], b_quals: &[u8], b_depths: &[u16], b_errors: &[u16],
        b_annotation: u8, b_marks: &[u8], b_unconverted: &[u32], b_converted: &[u32],
        position: usize) -> Reason;
}

// Methylation.
entry! {
    fn gedrashiw_restore_unconverted_bases(consensus_bases: &mut [u8], pattern: u8, marks: &[u8]) -> Count;
    fn gedrashiw_methylation_strand_bases(bases: &[u8], annotation: u8, marks: &[u8], out: &mut [u8]) -> Count;
    fn gedrashiw_build_mm_ml_tags(
        consensus_bases: &[u8], pattern: u8, marks: &[u8], unconverted: &[u32], converted: &[u32], mode: u8,
        mm: &mut [u8], ml: &mut [u8]) -> Tags;
    fn gedrashiw_build_mm_tag_no_ml(
        consensus_bases: &[u8], pattern: u8, marks: &[u8], unconverted: &[u32], converted: &[u32], mode: u8,
        mm: &mut [u8]) -> Tags;
    fn gedrashiw_duplex_methylation_tags(
        bases: &[u8],
        a_annotation: u8, a_marks: &[u8], a_unconverted: &[u32], a_converted: &[u32],
        b_annotation: u8, b_marks: &[u8], b_unconverted: &[u32], b_converted: &[u32],
        mode: u8, seq_out: &mut [u8], a_mm_out: &mut [u8], b_mm_out: &mut [u8], mm_out: &mut [u8], ml_out: &mut [u8],
        a_unconverted_out: &mut [u16], a_converted_out: &mut [u16], b_unconverted_out: &mut [u16], b_converted_out: &mut [u16],
        unconverted_out: &mut [u16], converted_out: &mut [u16]) -> DuplexTags;
    fn gedrashiw_annotate_simplex_methylation(
        consensus_len: usize, reads: &[SourceRead], bytes: &[u8], reference: &[u8], pattern: u8, aligned: &[u8],
        count_all_positions: u8, marks_out: &mut [u8], unconverted_out: &mut [u32], converted_out: &mut [u32]) -> Count;
}

// Numbers as bytes, low byte first.
entry! {
    fn gedrashiw_metrics(
        a_depths: &[u8], a_errors: &[u8], second: u8, b_depths: &[u8], b_errors: &[u8],
        bases: &[u8], errors: &[u8], out: &mut [u8]) -> u8;
    fn gedrashiw_duplex_consensus(
        molecule: ToldEncodedMolecule,
        a_bases: &[u8], a_quals: &[u8], a_depths: &[u8], a_errors: &[u8], a_evidence: &[u8],
        b_bases: &[u8], b_quals: &[u8], b_depths: &[u8], b_errors: &[u8], b_evidence: &[u8],
        reads: &[u8],
        bases_out: &mut [u8], quals_out: &mut [u8], errors_out: &mut [u8],
        a_evidence_out: &mut [u8], b_evidence_out: &mut [u8]) -> DuplexRecord;
    fn gedrashiw_preview_consensus(
        molecule: ToldEncodedMolecule,
        a_bases: &[u8], a_quals: &[u8], a_depths: &[u8], a_errors: &[u8], a_evidence: &[u8],
        b_bases: &[u8], b_quals: &[u8], b_depths: &[u8], b_errors: &[u8], b_evidence: &[u8],
        reads: &[u8],
        bases_out: &mut [u8], quals_out: &mut [u8], errors_out: &mut [u8],
        a_evidence_out: &mut [u8], b_evidence_out: &mut [u8]) -> DuplexRecord;
    fn gedrashiw_no_call_reason(
        a_present: u8, a_annotated: u8, a_pattern: u8,
        a_bases: &[u8], a_quals: &[u8], a_depths: &[u8], a_errors: &[u8], a_evidence: &[u8],
        b_present: u8, b_annotated: u8, b_pattern: u8,
        b_bases: &[u8], b_quals: &[u8], b_depths: &[u8], b_errors: &[u8], b_evidence: &[u8],
        position: usize) -> Reason;
    fn gedrashiw_methylation_tags(
        bases: &[u8],
        a_annotated: u8, a_pattern: u8, a_evidence: &[u8],
        b_annotated: u8, b_pattern: u8, b_evidence: &[u8],
        mode: u8, seq_out: &mut [u8], a_mm_out: &mut [u8], b_mm_out: &mut [u8], mm_out: &mut [u8], ml_out: &mut [u8],
        a_unconverted_out: &mut [u8], a_converted_out: &mut [u8], b_unconverted_out: &mut [u8], b_converted_out: &mut [u8],
        unconverted_out: &mut [u8], converted_out: &mut [u8]) -> DuplexTags;
}

/// The library writes counts as u16, none of them above `i16::MAX`.
pub(crate) fn as_u16(counts: &mut [i16]) -> &mut [u16] {
    // SAFETY: both types have one layout, and every bit pattern is a value of both.
    unsafe { &mut *(std::ptr::from_mut(counts) as *mut [u16]) }
}
