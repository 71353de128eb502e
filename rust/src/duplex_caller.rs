//! The duplex record: thresholds, the reads' partition and gates, the combination of two strands, depths and metrics.
use crate::MAX_POSITIONS;
use crate::entries::{self, ToldMolecule, ToldStrand, ToldStrands};
use crate::methylation::{ConversionPattern, EvidenceArrays, EvidenceOut, Given, MethylationAnnotation, written};
use crate::reason::NoCallReason;
use crate::refusal::{Refusal, told};
use crate::settings::Settings;
use crate::vanilla_caller::{SourceReads, VanillaConsensusRead};
use std::borrow::Cow;
use std::ops::Range;

/// The calls of the duplex caller. It has no state, so there is none of it.
#[derive(Clone, Copy, Debug, PartialEq, Eq)]
pub enum DuplexConsensusCaller {}

/// The thresholds of read counts, with missing ones filled in.
#[derive(Clone, Copy, Debug, PartialEq, Eq)]
pub struct MinReads {
    /// Of both strands.
    pub total: u32,
    /// Of the strand with more reads.
    pub xy: u32,
    /// Of the other.
    pub yx: u32,
}

/// Which record is written.
#[derive(Clone, Copy, Debug, PartialEq, Eq, Hash)]
#[repr(u8)]
pub enum ReadType {
    /// Of reads without a pair.
    Fragment = 0,
    /// Of the first reads.
    R1 = 1,
    /// Of the second.
    R2 = 2,
}

/// A read's MI among the bytes of all, or none.
#[derive(Clone, Copy, Debug, Default, PartialEq, Eq, Hash)]
#[repr(C)]
pub struct MiPart {
    present: usize,
    offset: usize,
    length: usize,
}

impl MiPart {
    /// Of a read without an MI.
    pub const ABSENT: MiPart = MiPart { present: 0, offset: 0, length: 0 };

    /// So many bytes from an offset on.
    ///
    /// ```
    /// use gedrashiw::{DuplexConsensusCaller, MiPart};
    ///
    /// let partition = DuplexConsensusCaller::partition_records_by_strand(&[MiPart::new(4, 4)], b"12/A34/B")?;
    /// assert_eq!((partition.base_mi, partition.b_records), (Some(&b"34"[..]), vec![0]));
    /// # Ok::<(), gedrashiw::Refusal>(())
    /// ```
    #[must_use]
    pub const fn new(offset: usize, length: usize) -> MiPart {
        MiPart { present: 1, offset, length }
    }
}

/// The reads of a molecule by strand: their numbers, each strand's in arrival order.
#[derive(Clone, Debug, PartialEq, Eq)]
pub struct Partition<'a> {
    /// The first read's MI without its last two bytes; `None` where there are no reads.
    pub base_mi: Option<&'a [u8]>,
    /// The reads of strand A.
    pub a_records: Vec<u16>,
    /// The reads of strand B.
    pub b_records: Vec<u16>,
}

/// How many read numbers are written for each strand.
#[derive(Clone, Debug, PartialEq, Eq)]
pub struct PartitionLengths {
    /// Where the first read's MI without its last two bytes is among the bytes; `None` where there are no reads.
    pub base_mi: Option<Range<usize>>,
    /// How many reads of strand A.
    pub a: usize,
    /// How many of strand B.
    pub b: usize,
}

/// The methylation call of a position of two strands.
#[derive(Clone, Copy, Debug, PartialEq, Eq)]
pub struct MoleculeCall {
    /// The pattern of the strand that carries it.
    pub pattern: ConversionPattern,
    /// That strand's base.
    pub call: u8,
    /// The base that the other confirms.
    pub confirmed: u8,
}

/// Where the bases, qualities and errors of a record go.
#[derive(Debug, Default)]
pub struct ConsensusOut<'a> {
    /// Bases.
    pub bases: &'a mut [u8],
    /// Qualities.
    pub quals: &'a mut [u8],
    /// Errors.
    pub errors: &'a mut [u16],
}

/// Two strands combined: as many positions as the shorter has.
#[derive(Clone, Debug, PartialEq, Eq)]
pub struct CombinedStrands {
    /// Bases.
    pub bases: Vec<u8>,
    /// Qualities.
    pub quals: Vec<u8>,
    /// Errors.
    pub errors: Vec<u16>,
    /// The evidence that the first strand keeps, where it is annotated.
    pub a_evidence: Option<EvidenceArrays<'static>>,
    /// The evidence that the second strand keeps, where it is annotated.
    pub b_evidence: Option<EvidenceArrays<'static>>,
}

/// Which strands a record is of.
#[derive(Clone, Copy, Debug, PartialEq, Eq, Hash)]
pub enum Kind {
    /// Strand A alone.
    Ab,
    /// Strand B alone, which is the record's first strand.
    Ba,
    /// Both strands.
    Both,
}

/// What a record is that was written to the caller's outputs.
#[derive(Clone, Copy, Debug, PartialEq, Eq)]
pub struct Record {
    /// Which strands it is of.
    pub kind: Kind,
    /// How many positions it has.
    pub positions: usize,
}

/// A duplex record. The arrays of its strands are the caller's: whole for one strand, cut to the record's length for two.
#[derive(Clone, Debug, PartialEq, Eq)]
pub struct DuplexConsensusRead<'a> {
    /// Its bases.
    pub bases: Vec<u8>,
    /// Their qualities.
    pub quals: Vec<u8>,
    /// Its errors.
    pub errors: Vec<u16>,
    /// Its first strand, with the evidence that it keeps.
    pub ab_consensus: VanillaConsensusRead<'a>,
    /// Its second strand, if it has two.
    pub ba_consensus: Option<VanillaConsensusRead<'a>>,
    /// Whether strand B alone is the record, and so its first strand.
    pub is_ba_only: bool,
}

/// The figures of a strand: each depth and error is held to 32,767 first.
#[derive(Clone, Copy, Debug, PartialEq, Eq)]
pub struct StrandFigures {
    /// The largest depth.
    pub largest: u32,
    /// The smallest.
    pub smallest: u32,
    /// The sum of the depths.
    pub depths: u32,
    /// The sum of the errors.
    pub errors: u32,
}

/// The depths and errors of a strand.
#[derive(Clone, Copy, Debug, Default, PartialEq, Eq)]
pub struct Counts<'a> {
    /// Its depths.
    pub depths: &'a [u16],
    /// Its errors.
    pub errors: &'a [u16],
}

/// The metrics of a record, by their tags.
#[derive(Clone, Copy, Debug, PartialEq)]
#[expect(non_snake_case, reason = "the names of the tags")]
pub struct Metrics {
    /// The largest depth of the first strand.
    pub aD: u32,
    /// The smallest depth of the first strand.
    pub aM: u32,
    /// The error rate of the first strand.
    pub aE: f32,
    /// The largest depth of the second strand.
    pub bD: u32,
    /// The smallest depth of the second strand.
    pub bM: u32,
    /// The error rate of the second strand.
    pub bE: f32,
    /// The largest depth of both.
    pub cD: u32,
    /// The smallest depth of both.
    pub cM: u32,
    /// The error rate of the record.
    pub cE: f32,
    /// How many positions of the record have the base N and a depth above 0, as cD takes it: padding is not counted.
    pub nc: u32,
}

impl DuplexConsensusCaller {
    /// The thresholds of a list of one to three, each at most the one before; missing ones repeat the last.
    ///
    /// # Errors
    ///
    /// [`Refusal::NoThresholds`], [`Refusal::TooManyThresholds`], [`Refusal::XyAboveTotal`], [`Refusal::YxAboveXy`].
    ///
    /// ```
    /// use gedrashiw::{DuplexConsensusCaller, MinReads, Refusal};
    ///
    /// assert_eq!(DuplexConsensusCaller::validate_min_reads(&[3, 1]), Ok(MinReads { total: 3, xy: 1, yx: 1 }));
    /// assert_eq!(DuplexConsensusCaller::validate_min_reads(&[]), Err(Refusal::NoThresholds));
    /// ```
    #[inline]
    pub fn validate_min_reads(min_reads: &[u32]) -> Result<MinReads, Refusal> {
        let t = entries::gedrashiw_validate_min_reads(min_reads);
        told(t.refused, MinReads { total: t.total, xy: t.xy, yx: t.yx })
    }

    /// The threshold of the strand with fewer reads.
    ///
    /// # Errors
    ///
    /// As [`Self::validate_min_reads`].
    ///
    /// ```
    /// assert_eq!(gedrashiw::DuplexConsensusCaller::min_yx_reads_for(&[3, 1]), Ok(1));
    /// ```
    #[inline]
    pub fn min_yx_reads_for(min_reads: &[u32]) -> Result<u32, Refusal> {
        let yx = entries::gedrashiw_min_yx_reads_for(min_reads);
        told(yx.refused, yx.number)
    }

    /// Whether a molecule with one strand may have a record: where that threshold is 0.
    ///
    /// # Errors
    ///
    /// As [`Self::validate_min_reads`].
    ///
    /// ```
    /// assert_eq!(gedrashiw::DuplexConsensusCaller::allows_single_strand_consensus(&[1, 1, 0]), Ok(true));
    /// ```
    #[inline]
    pub fn allows_single_strand_consensus(min_reads: &[u32]) -> Result<bool, Refusal> {
        let allowed = entries::gedrashiw_allows_single_strand_consensus(min_reads);
        told(allowed.refused, allowed.number != 0)
    }

    /// The strand that an MI names by its last two bytes, /A or /B.
    ///
    /// ```
    /// use gedrashiw::DuplexConsensusCaller;
    ///
    /// assert_eq!(DuplexConsensusCaller::extract_strand_from_mi_bytes(b"7/B"), Some('B'));
    /// assert_eq!(DuplexConsensusCaller::extract_strand_from_mi_bytes(b"A"), None);
    /// ```
    #[must_use]
    #[inline]
    pub fn extract_strand_from_mi_bytes(mi_bytes: &[u8]) -> Option<char> {
        match entries::gedrashiw_extract_strand_from_mi_bytes(mi_bytes) {
            0 => None,
            1 => Some('A'),
            _ => Some('B'),
        }
    }

    /// The reads of a molecule by strand, from their MIs, which are parts of `bytes`.
    ///
    /// # Errors
    ///
    /// [`Refusal::TooManyReads`], [`Refusal::PartOutside`]; [`Refusal::NoMi`] or [`Refusal::NoStrand`] for the first read that has
    /// no MI or one that names no strand.
    ///
    /// ```
    /// use gedrashiw::{DuplexConsensusCaller, MiPart};
    ///
    /// let reads = [MiPart::new(0, 3), MiPart::new(3, 3), MiPart::new(0, 3)];
    /// let partition = DuplexConsensusCaller::partition_records_by_strand(&reads, b"7/B7/A")?;
    /// assert_eq!(partition.base_mi, Some(&b"7"[..]));
    /// assert_eq!((partition.a_records, partition.b_records), (vec![1], vec![0, 2]));
    /// # Ok::<(), gedrashiw::Refusal>(())
    /// ```
    pub fn partition_records_by_strand<'a>(reads: &[MiPart], bytes: &'a [u8]) -> Result<Partition<'a>, Refusal> {
        let (mut a_records, mut b_records) = (vec![0; reads.len()], vec![0; reads.len()]);
        let lengths = Self::partition_records_by_strand_into(reads, bytes, &mut a_records, &mut b_records)?;
        a_records.truncate(lengths.a);
        b_records.truncate(lengths.b);
        Ok(Partition { base_mi: lengths.base_mi.map(|part| &bytes[part]), a_records, b_records })
    }

    /// Writes the read numbers of each strand; each output must have as many places as there are reads.
    ///
    /// # Errors
    ///
    /// As [`Self::partition_records_by_strand`], and [`Refusal::OutputTooShort`].
    ///
    /// ```
    /// use gedrashiw::{DuplexConsensusCaller, MiPart};
    ///
    /// let (mut a, mut b) = ([9; 2], [9; 2]);
    /// let reads = [MiPart::new(0, 2)];
    /// let lengths = DuplexConsensusCaller::partition_records_by_strand_into(&reads, b"/A", &mut a, &mut b)?;
    /// assert_eq!((lengths.base_mi, lengths.a, lengths.b), (Some(0..0), 1, 0));
    /// assert_eq!((a, b), ([0, 9], [9, 9]));
    /// # Ok::<(), gedrashiw::Refusal>(())
    /// ```
    pub fn partition_records_by_strand_into(
        reads: &[MiPart],
        bytes: &[u8],
        a_out: &mut [u16],
        b_out: &mut [u16],
    ) -> Result<PartitionLengths, Refusal> {
        let p = entries::gedrashiw_partition_records_by_strand(reads, bytes, a_out, b_out);
        let base_mi = (p.base_mi != 0).then(|| p.offset..p.offset + p.length);
        told(p.refused, PartitionLengths { base_mi, a: p.a, b: p.b })
    }

    /// Whether flags are of a paired read.
    ///
    /// ```
    /// assert!(gedrashiw::DuplexConsensusCaller::is_paired(0x1));
    /// ```
    #[must_use]
    #[inline]
    pub fn is_paired(flags: u16) -> bool {
        entries::gedrashiw_is_paired(flags) != 0
    }

    /// Whether flags are of the first read of a pair.
    ///
    /// ```
    /// assert!(gedrashiw::DuplexConsensusCaller::is_paired_r1(0x41));
    /// assert!(!gedrashiw::DuplexConsensusCaller::is_paired_r1(0x40));
    /// ```
    #[must_use]
    #[inline]
    pub fn is_paired_r1(flags: u16) -> bool {
        entries::gedrashiw_is_paired_r1(flags) != 0
    }

    /// Whether flags are of the second read of a pair.
    ///
    /// ```
    /// assert!(gedrashiw::DuplexConsensusCaller::is_paired_r2(0x81));
    /// ```
    #[must_use]
    #[inline]
    pub fn is_paired_r2(flags: u16) -> bool {
        entries::gedrashiw_is_paired_r2(flags) != 0
    }

    /// The flags of a written record.
    ///
    /// ```
    /// use gedrashiw::{DuplexConsensusCaller, ReadType};
    ///
    /// assert_eq!([ReadType::R1, ReadType::R2, ReadType::Fragment].map(DuplexConsensusCaller::written_flags), [77, 141, 4]);
    /// ```
    #[must_use]
    #[inline]
    pub fn written_flags(read_type: ReadType) -> u16 {
        entries::gedrashiw_written_flags(read_type as u8).number as u16
    }

    /// The read gate: whether the paired first reads of each strand, given by all reads' flags, reach the thresholds.
    ///
    /// # Errors
    ///
    /// As [`Self::validate_min_reads`], then [`Refusal::TooManyReads`].
    ///
    /// ```
    /// use gedrashiw::DuplexConsensusCaller;
    ///
    /// assert_eq!(DuplexConsensusCaller::has_minimum_number_of_reads(&[77, 77, 141], &[77], &[3, 2, 1]), Ok(true));
    /// assert_eq!(DuplexConsensusCaller::has_minimum_number_of_reads(&[77], &[77], &[3]), Ok(false));
    /// ```
    #[inline]
    pub fn has_minimum_number_of_reads(a_reads: &[u16], b_reads: &[u16], min_reads: &[u32]) -> Result<bool, Refusal> {
        let gate = entries::gedrashiw_has_minimum_number_of_reads(a_reads, b_reads, min_reads);
        told(gate.refused, gate.number != 0)
    }

    /// The consensus gate: whether the strands' largest depths within the record reach the thresholds.
    ///
    /// # Errors
    ///
    /// As [`Self::validate_min_reads`], then [`Refusal::TooLong`].
    ///
    /// ```
    /// use gedrashiw::{DuplexConsensusCaller, Settings, VanillaConsensusRead};
    ///
    /// let a = VanillaConsensusRead::new(b"AC", &[30; 2], &[4, 5], &[0; 2]);
    /// let record = DuplexConsensusCaller::duplex_consensus(Settings::default(), Some(&a), None, None)?.expect("it is covered");
    /// assert!(DuplexConsensusCaller::duplex_consensus_has_minimum_reads(&record, &[5, 5, 0])?);
    /// assert!(!DuplexConsensusCaller::duplex_consensus_has_minimum_reads(&record, &[5, 5, 1])?);
    /// # Ok::<(), gedrashiw::Refusal>(())
    /// ```
    #[inline]
    pub fn duplex_consensus_has_minimum_reads(consensus: &DuplexConsensusRead, min_reads: &[u32]) -> Result<bool, Refusal> {
        let (ab, ba) = consensus.depths();
        depths_have_minimum_reads(consensus.len(), ab, ba, min_reads)
    }

    /// Whether reads, given by their flags, are all forward or all reverse.
    ///
    /// # Errors
    ///
    /// [`Refusal::TooManyReads`].
    ///
    /// ```
    /// use gedrashiw::DuplexConsensusCaller;
    ///
    /// assert_eq!(DuplexConsensusCaller::are_all_same_strand(&[16, 83, 147]), Ok(true));
    /// assert_eq!(DuplexConsensusCaller::are_all_same_strand(&[16, 77]), Ok(false));
    /// ```
    #[inline]
    pub fn are_all_same_strand(reads: &[u16]) -> Result<bool, Refusal> {
        let same = entries::gedrashiw_are_all_same_strand(reads);
        told(same.refused, same.number != 0)
    }

    /// Whether both bases are called and differ.
    ///
    /// ```
    /// assert!(gedrashiw::DuplexConsensusCaller::is_error(b'A', b'C'));
    /// assert!(!gedrashiw::DuplexConsensusCaller::is_error(b'A', b'N'));
    /// ```
    #[must_use]
    #[inline]
    pub fn is_error(source_base: u8, consensus_base: u8) -> bool {
        entries::gedrashiw_is_error(source_base, consensus_base) != 0
    }

    /// The methylation call of a position, from the base of the C-to-T strand and that of the G-to-A strand.
    ///
    /// ```
    /// use gedrashiw::methylation::ConversionPattern;
    /// use gedrashiw::{DuplexConsensusCaller, MoleculeCall};
    ///
    /// let call = MoleculeCall { pattern: ConversionPattern::CToT, call: b't', confirmed: b'C' };
    /// assert_eq!(DuplexConsensusCaller::molecule_call(b't', b'C'), Some(call));
    /// assert_eq!(DuplexConsensusCaller::molecule_call(b'G', b'C'), None);
    /// ```
    #[must_use]
    pub fn molecule_call(ct_base: u8, ga_base: u8) -> Option<MoleculeCall> {
        let c = entries::gedrashiw_molecule_call(ct_base, ga_base);
        let pattern = ConversionPattern::of_number(c.pattern)?;
        Some(MoleculeCall { pattern, call: c.call, confirmed: c.confirmed })
    }

    /// A strand as it is in a record of its own: its evidence clear where it is not informative.
    ///
    /// # Errors
    ///
    /// [`Refusal::TooLong`], [`Refusal::Ragged`].
    ///
    /// ```
    /// use gedrashiw::methylation::{ConversionPattern, EvidenceArrays};
    /// use gedrashiw::{DuplexConsensusCaller, VanillaConsensusRead};
    ///
    /// let strand = VanillaConsensusRead::new(b"CC", &[30; 2], &[4; 2], &[0; 2])
    ///     .annotated(ConversionPattern::CToT, EvidenceArrays::new(&[1, 0], &[4, 3], &[0, 1]));
    /// let gated = DuplexConsensusCaller::gated_single_strand(&strand)?;
    /// assert_eq!(gated.methylation.unwrap().evidence, EvidenceArrays::new(&[1, 0], &[4, 0], &[0, 0]));
    /// # Ok::<(), gedrashiw::Refusal>(())
    /// ```
    pub fn gated_single_strand<'a>(consensus: &'a VanillaConsensusRead) -> Result<VanillaConsensusRead<'a>, Refusal> {
        let mut buffers = Buffers::of(consensus.len(), consensus.methylation.is_some());
        let (mut out, mut evidence, _) = buffers.lent();
        let positions = Self::gated_single_strand_into(consensus, &mut out, &mut evidence)?;
        Ok(in_record(consensus, positions, buffers.first))
    }

    /// Writes a strand as a record of its own; answers how many positions it has. Its depths are the strand's.
    ///
    /// # Errors
    ///
    /// [`Refusal::TooLong`], [`Refusal::Ragged`], [`Refusal::OutputTooShort`].
    ///
    /// ```
    /// use gedrashiw::methylation::EvidenceOut;
    /// use gedrashiw::{ConsensusOut, DuplexConsensusCaller, VanillaConsensusRead};
    ///
    /// let strand = VanillaConsensusRead::new(b"CC", &[30; 2], &[4; 2], &[0, 1]);
    /// let (mut bases, mut quals, mut errors) = ([b'.'; 3], [9; 3], [9; 3]);
    /// let mut out = ConsensusOut { bases: &mut bases, quals: &mut quals, errors: &mut errors };
    /// let positions = DuplexConsensusCaller::gated_single_strand_into(&strand, &mut out, &mut EvidenceOut::default())?;
    /// assert_eq!((positions, &bases, quals, errors), (2, b"CC.", [30, 30, 9], [0, 1, 9]));
    /// # Ok::<(), gedrashiw::Refusal>(())
    /// ```
    pub fn gated_single_strand_into(
        consensus: &VanillaConsensusRead,
        out: &mut ConsensusOut,
        evidence: &mut EvidenceOut,
    ) -> Result<usize, Refusal> {
        let given = Given::of(consensus.methylation.as_ref());
        let gated = entries::gedrashiw_gated_single_strand(
            &consensus.bases,
            &consensus.quals,
            &consensus.depths,
            &consensus.errors,
            given.annotation,
            given.marks,
            given.unconverted,
            given.converted,
            out.bases,
            out.quals,
            out.errors,
            evidence.informative,
            evidence.unconverted_count,
            evidence.converted_count,
        );
        told(gated.refused, gated.count)
    }

    /// Two strands combined, their annotations aside. Where source reads are listed, the errors are 0, and are counted of them
    /// elsewhere; else they are estimated.
    ///
    /// # Errors
    ///
    /// [`Refusal::CeilingOutside`], [`Refusal::TooLong`], [`Refusal::OverLimit`], [`Refusal::Ragged`].
    ///
    /// ```
    /// use gedrashiw::{DuplexConsensusCaller, Settings, VanillaConsensusRead};
    ///
    /// let a = VanillaConsensusRead::new(b"AC", &[30; 2], &[1; 2], &[0; 2]);
    /// let b = VanillaConsensusRead::new(b"AT", &[20; 2], &[3; 2], &[0; 2]);
    /// let combined = DuplexConsensusCaller::combine_strands(Settings::default(), &a, &b, false)?;
    /// assert_eq!((combined.bases, combined.quals, combined.errors), (b"AC".to_vec(), vec![50, 10], vec![0, 3]));
    /// let forty = Settings { ceiling: 40, ..Settings::default() };
    /// let combined = DuplexConsensusCaller::combine_strands(forty, &a, &b, false)?;
    /// assert_eq!((combined.bases, combined.quals, combined.errors), (b"AC".to_vec(), vec![40, 10], vec![0, 3]));
    /// # Ok::<(), gedrashiw::Refusal>(())
    /// ```
    pub fn combine_strands(
        settings: Settings,
        a: &VanillaConsensusRead,
        b: &VanillaConsensusRead,
        listed: bool,
    ) -> Result<CombinedStrands, Refusal> {
        let mut buffers = Buffers::of(a.len().min(b.len()), false);
        let (mut out, ..) = buffers.lent();
        let positions = Self::combine_strands_into(settings, a, b, listed, &mut out)?;
        Ok(buffers.combined(positions, false, false))
    }

    /// Writes [`Self::combine_strands`]; answers how many positions there are.
    ///
    /// # Errors
    ///
    /// [`Refusal::CeilingOutside`], [`Refusal::TooLong`], [`Refusal::OverLimit`], [`Refusal::Ragged`], [`Refusal::OutputTooShort`].
    ///
    /// ```
    /// use gedrashiw::{ConsensusOut, DuplexConsensusCaller, Settings, VanillaConsensusRead};
    ///
    /// let a = VanillaConsensusRead::new(b"AC", &[30; 2], &[1; 2], &[0; 2]);
    /// let (mut bases, mut quals, mut errors) = ([b'.'; 3], [9; 3], [9; 3]);
    /// let mut out = ConsensusOut { bases: &mut bases, quals: &mut quals, errors: &mut errors };
    /// assert_eq!(DuplexConsensusCaller::combine_strands_into(Settings::default(), &a, &a, false, &mut out), Ok(2));
    /// assert_eq!((&bases, quals, errors), (b"AC.", [60, 60, 9], [0, 0, 9]));
    /// ```
    pub fn combine_strands_into(
        settings: Settings,
        a: &VanillaConsensusRead,
        b: &VanillaConsensusRead,
        listed: bool,
        out: &mut ConsensusOut,
    ) -> Result<usize, Refusal> {
        let combined = entries::gedrashiw_combine_strands(
            u8::from(listed),
            settings,
            &a.bases,
            &a.quals,
            &a.depths,
            &a.errors,
            &b.bases,
            &b.quals,
            &b.depths,
            &b.errors,
            out.bases,
            out.quals,
            out.errors,
        );
        told(combined.refused, combined.count)
    }

    /// Two strands that may be annotated, combined, as [`Self::combine_strands`] does those that are not.
    ///
    /// # Errors
    ///
    /// [`Refusal::CeilingOutside`], [`Refusal::TooLong`], [`Refusal::OverLimit`], [`Refusal::Ragged`].
    ///
    /// ```
    /// use gedrashiw::methylation::{ConversionPattern, EvidenceArrays};
    /// use gedrashiw::{DuplexConsensusCaller, Settings, VanillaConsensusRead};
    ///
    /// let ct = VanillaConsensusRead::new(b"T", &[30], &[1], &[0])
    ///     .annotated(ConversionPattern::CToT, EvidenceArrays::new(&[1], &[3], &[4]));
    /// let ga = VanillaConsensusRead::new(b"C", &[40], &[1], &[0])
    ///     .annotated(ConversionPattern::GToA, EvidenceArrays::new(&[1], &[7], &[9]));
    /// let combined = DuplexConsensusCaller::combine_strands_annotated(Settings::default(), &ct, &ga, false)?;
    /// assert_eq!((combined.bases, combined.quals), (b"C".to_vec(), vec![70]));
    /// assert_eq!(combined.a_evidence, Some(EvidenceArrays::new(&[1], &[3], &[4])));
    /// assert_eq!(combined.b_evidence, Some(EvidenceArrays::new(&[0], &[0], &[0])));
    /// # Ok::<(), gedrashiw::Refusal>(())
    /// ```
    pub fn combine_strands_annotated(
        settings: Settings,
        a: &VanillaConsensusRead,
        b: &VanillaConsensusRead,
        listed: bool,
    ) -> Result<CombinedStrands, Refusal> {
        let (of_a, of_b) = (a.methylation.is_some(), b.methylation.is_some());
        let mut buffers = Buffers::of(a.len().min(b.len()), of_a | of_b);
        let (mut out, mut first, mut second) = buffers.lent();
        let positions = Self::combine_strands_annotated_into(settings, a, b, listed, &mut out, &mut first, &mut second)?;
        Ok(buffers.combined(positions, of_a, of_b))
    }

    /// Writes [`Self::combine_strands_annotated`]; answers how many positions there are. Evidence is written of annotated strands.
    ///
    /// # Errors
    ///
    /// [`Refusal::CeilingOutside`], [`Refusal::TooLong`], [`Refusal::OverLimit`], [`Refusal::Ragged`], [`Refusal::OutputTooShort`].
    ///
    /// ```
    /// use gedrashiw::methylation::EvidenceOut;
    /// use gedrashiw::{ConsensusOut, DuplexConsensusCaller, Refusal, Settings, VanillaConsensusRead};
    ///
    /// let a = VanillaConsensusRead::new(b"AC", &[30; 2], &[1; 2], &[0; 2]);
    /// let (mut bases, mut quals, mut errors) = ([b'.'; 1], [9; 2], [9; 2]);
    /// let mut out = ConsensusOut { bases: &mut bases, quals: &mut quals, errors: &mut errors };
    /// let (mut first, mut second) = (EvidenceOut::default(), EvidenceOut::default());
    /// let mut written = |settings| {
    ///     DuplexConsensusCaller::combine_strands_annotated_into(settings, &a, &a, false, &mut out, &mut first, &mut second)
    /// };
    /// assert_eq!(written(Settings::default()), Err(Refusal::OutputTooShort));
    /// let settings = Settings { ceiling: 2, limit: 1 };
    /// assert_eq!(written(settings), Err(Refusal::CeilingOutside));
    /// assert_eq!(written(Settings { ceiling: 3, ..settings }), Err(Refusal::OverLimit));
    /// ```
    pub fn combine_strands_annotated_into(
        settings: Settings,
        a: &VanillaConsensusRead,
        b: &VanillaConsensusRead,
        listed: bool,
        out: &mut ConsensusOut,
        a_evidence: &mut EvidenceOut,
        b_evidence: &mut EvidenceOut,
    ) -> Result<usize, Refusal> {
        let (of_a, of_b) = (Given::of(a.methylation.as_ref()), Given::of(b.methylation.as_ref()));
        let strands =
            ToldStrands { a_annotation: of_a.annotation, b_annotation: of_b.annotation, listed: u8::from(listed), settings };
        let combined = entries::gedrashiw_combine_strands_annotated(
            strands,
            &a.bases,
            &a.quals,
            &a.depths,
            &a.errors,
            of_a.marks,
            of_a.unconverted,
            of_a.converted,
            &b.bases,
            &b.quals,
            &b.depths,
            &b.errors,
            of_b.marks,
            of_b.unconverted,
            of_b.converted,
            out.bases,
            out.quals,
            out.errors,
            a_evidence.informative,
            a_evidence.unconverted_count,
            a_evidence.converted_count,
            b_evidence.informative,
            b_evidence.unconverted_count,
            b_evidence.converted_count,
        );
        told(combined.refused, combined.count)
    }

    /// The duplex record of two strands, of one or of none; `None` where no strand is covered. Without a list of source reads the
    /// errors are estimated, with one they are counted: an empty list gives none.
    ///
    /// # Errors
    ///
    /// [`Refusal::CeilingOutside`], [`Refusal::TooLong`], [`Refusal::OverLimit`], [`Refusal::Ragged`], [`Refusal::TooManyReads`],
    /// [`Refusal::PartOutside`].
    ///
    /// ```
    /// use gedrashiw::{DuplexConsensusCaller, Settings, VanillaConsensusRead};
    ///
    /// let a = VanillaConsensusRead::new(b"ACGT", &[30; 4], &[2; 4], &[0; 4]);
    /// let b = VanillaConsensusRead::new(b"ACTN", &[20, 40, 30, 2], &[1; 4], &[0; 4]);
    /// let record = |settings| DuplexConsensusCaller::duplex_consensus(settings, Some(&a), Some(&b), None);
    /// let usual = record(Settings::default())?.expect("both are covered");
    /// assert_eq!((usual.bases, usual.quals, usual.errors), (b"ACNN".to_vec(), vec![50, 70, 2, 2], vec![0, 0, 1, 1]));
    /// let held = record(Settings { ceiling: 60, ..Settings::default() })?.expect("both are covered");
    /// assert_eq!((held.bases, held.quals, held.errors), (b"ACNN".to_vec(), vec![50, 60, 2, 2], vec![0, 0, 1, 1]));
    /// # Ok::<(), gedrashiw::Refusal>(())
    /// ```
    pub fn duplex_consensus<'a>(
        settings: Settings,
        ab: Option<&'a VanillaConsensusRead>,
        ba: Option<&'a VanillaConsensusRead>,
        source_reads: Option<SourceReads>,
    ) -> Result<Option<DuplexConsensusRead<'a>>, Refusal> {
        let strands = || [ab, ba].into_iter().flatten();
        let longest = strands().map(VanillaConsensusRead::len).max().unwrap_or(0);
        let mut buffers = Buffers::of(longest.min(usize::from(settings.limit)), strands().any(|s| s.methylation.is_some()));
        let (mut out, mut first, mut second) = buffers.lent();
        let Some(record) = Self::duplex_consensus_into(settings, ab, ba, source_reads, &mut out, &mut first, &mut second)? else {
            return Ok(None);
        };
        let n = record.positions;
        let (first, second) = match record.kind {
            Kind::Ab => (ab, None),
            Kind::Ba => (ba, None),
            Kind::Both => (ab, ba),
        };
        Ok(Some(DuplexConsensusRead {
            ab_consensus: in_record(first.expect("a record's strand is there"), n, buffers.first),
            ba_consensus: second.map(|s| in_record(s, n, buffers.second)),
            is_ba_only: record.kind == Kind::Ba,
            bases: cut(buffers.bases, n),
            quals: cut(buffers.quals, n),
            errors: cut(buffers.errors, n),
        }))
    }

    /// Writes the duplex record of [`Self::duplex_consensus`]; answers what it is. The evidence of its first strand goes to `first`,
    /// that of its second to `second`, where they are annotated. A record has at most [`MAX_POSITIONS`].
    ///
    /// # Errors
    ///
    /// As [`Self::duplex_consensus`], and [`Refusal::OutputTooShort`].
    ///
    /// ```
    /// use gedrashiw::methylation::EvidenceOut;
    /// use gedrashiw::{ConsensusOut, DuplexConsensusCaller, Kind, Record, Settings, SourceReadBuffer, VanillaConsensusRead};
    ///
    /// let a = VanillaConsensusRead::new(b"AC", &[30; 2], &[1; 2], &[0; 2]);
    /// let mut reads = SourceReadBuffer::default();
    /// reads.push(0x41, b"GC");
    /// let (mut bases, mut quals, mut errors) = ([0; 1024], [0; 1024], [0; 1024]);
    /// let mut out = ConsensusOut { bases: &mut bases, quals: &mut quals, errors: &mut errors };
    /// let (mut first, mut second) = (EvidenceOut::default(), EvidenceOut::default());
    /// let (settings, list) = (Settings::default(), Some(reads.list()));
    /// let record =
    ///     DuplexConsensusCaller::duplex_consensus_into(settings, Some(&a), Some(&a), list, &mut out, &mut first, &mut second)?;
    /// assert_eq!(record, Some(Record { kind: Kind::Both, positions: 2 }));
    /// assert_eq!((&out.bases[..2], &out.errors[..2]), (&b"AC"[..], &[1, 0][..]));
    /// # Ok::<(), gedrashiw::Refusal>(())
    /// ```
    pub fn duplex_consensus_into(
        settings: Settings,
        ab: Option<&VanillaConsensusRead>,
        ba: Option<&VanillaConsensusRead>,
        source_reads: Option<SourceReads>,
        out: &mut ConsensusOut,
        first: &mut EvidenceOut,
        second: &mut EvidenceOut,
    ) -> Result<Option<Record>, Refusal> {
        let (a, b) = (GivenStrand::of(ab), GivenStrand::of(ba));
        let list = source_reads.unwrap_or_default();
        let molecule =
            ToldMolecule { a: a.told(ab.is_some()), b: b.told(ba.is_some()), listed: u8::from(source_reads.is_some()), settings };
        let record = entries::gedrashiw_duplex_consensus_typed(
            molecule,
            a.bases,
            a.quals,
            a.depths,
            a.errors,
            a.evidence.marks,
            a.evidence.unconverted,
            a.evidence.converted,
            b.bases,
            b.quals,
            b.depths,
            b.errors,
            b.evidence.marks,
            b.evidence.unconverted,
            b.evidence.converted,
            list.reads,
            list.bytes,
            out.bases,
            out.quals,
            out.errors,
            first.informative,
            first.unconverted_count,
            first.converted_count,
            second.informative,
            second.unconverted_count,
            second.converted_count,
        );
        told(record.refused, Record::of(record.kind, record.positions))
    }

    /// The same for a live preview: [`Self::duplex_consensus`] at the smaller of the settings' limit and [`PREVIEW_POSITIONS`]. Of strands
    /// within these it gives the same, refusals included; no memory is taken for more.
    ///
    /// [`PREVIEW_POSITIONS`]: crate::PREVIEW_POSITIONS
    ///
    /// # Errors
    ///
    /// As [`Self::duplex_consensus`].
    ///
    /// ```
    /// use gedrashiw::{DuplexConsensusCaller, Refusal, Settings, VanillaConsensusRead};
    ///
    /// let usual = Settings::default();
    /// let long = VanillaConsensusRead::new(&[b'A'; 257], &[30; 257], &[1; 257], &[0; 257]);
    /// assert_eq!(DuplexConsensusCaller::preview_consensus(usual, Some(&long), None, None), Err(Refusal::OverLimit));
    /// assert!(DuplexConsensusCaller::duplex_consensus(usual, Some(&long), None, None)?.is_some());
    /// let shown = VanillaConsensusRead::new(&[b'A'; 256], &[30; 256], &[1; 256], &[0; 256]);
    /// assert_eq!(
    ///     DuplexConsensusCaller::preview_consensus(usual, Some(&shown), Some(&shown), None)?,
    ///     DuplexConsensusCaller::duplex_consensus(usual, Some(&shown), Some(&shown), None)?
    /// );
    /// # Ok::<(), gedrashiw::Refusal>(())
    /// ```
    pub fn preview_consensus<'a>(
        settings: Settings,
        ab: Option<&'a VanillaConsensusRead>,
        ba: Option<&'a VanillaConsensusRead>,
        source_reads: Option<SourceReads>,
    ) -> Result<Option<DuplexConsensusRead<'a>>, Refusal> {
        Self::duplex_consensus(settings.previewed(), ab, ba, source_reads)
    }

    /// Writes the duplex record of [`Self::preview_consensus`]; answers what it is, as [`Self::duplex_consensus_into`]. A record has at most
    /// [`PREVIEW_POSITIONS`], and no output needs more places.
    ///
    /// [`PREVIEW_POSITIONS`]: crate::PREVIEW_POSITIONS
    ///
    /// # Errors
    ///
    /// As [`Self::preview_consensus`], and [`Refusal::OutputTooShort`].
    ///
    /// ```
    /// use gedrashiw::methylation::EvidenceOut;
    /// use gedrashiw::{ConsensusOut, DuplexConsensusCaller, Kind, Record, Settings, VanillaConsensusRead};
    ///
    /// let a = VanillaConsensusRead::new(b"AC", &[30; 2], &[1; 2], &[0; 2]);
    /// let (mut bases, mut quals, mut errors) = ([0; 256], [0; 256], [0; 256]);
    /// let mut out = ConsensusOut { bases: &mut bases, quals: &mut quals, errors: &mut errors };
    /// let (mut first, mut second) = (EvidenceOut::default(), EvidenceOut::default());
    /// let settings = Settings::default();
    /// let record =
    ///     DuplexConsensusCaller::preview_consensus_into(settings, Some(&a), Some(&a), None, &mut out, &mut first, &mut second)?;
    /// assert_eq!(record, Some(Record { kind: Kind::Both, positions: 2 }));
    /// assert_eq!((&out.bases[..2], &out.quals[..2]), (&b"AC"[..], &[60, 60][..]));
    /// # Ok::<(), gedrashiw::Refusal>(())
    /// ```
    pub fn preview_consensus_into(
        settings: Settings,
        ab: Option<&VanillaConsensusRead>,
        ba: Option<&VanillaConsensusRead>,
        source_reads: Option<SourceReads>,
        out: &mut ConsensusOut,
        first: &mut EvidenceOut,
        second: &mut EvidenceOut,
    ) -> Result<Option<Record>, Refusal> {
        Self::duplex_consensus_into(settings.previewed(), ab, ba, source_reads, out, first, second)
    }

    /// Why the record that [`Self::duplex_consensus`] makes of the same strands shows N at a position, counted from 0; or that it shows a
    /// base there, that it is of one strand, or that it does not reach so far. Source reads change no base, a ceiling makes none N, and a
    /// limit refuses and does no more, so none of these is taken.
    ///
    /// # Errors
    ///
    /// [`Refusal::TooLong`], [`Refusal::Ragged`], also where there is no record.
    ///
    /// ```
    /// use gedrashiw::{DuplexConsensusCaller, NoCallReason, VanillaConsensusRead};
    ///
    /// let a = VanillaConsensusRead::new(b"ACGT", &[30; 4], &[2; 4], &[0; 4]);
    /// let b = VanillaConsensusRead::new(b"ACTN", &[20, 40, 30, 2], &[1; 4], &[0; 4]);
    /// let why = |position| DuplexConsensusCaller::no_call_reason(Some(&a), Some(&b), position);
    /// assert_eq!(why(0), Ok(NoCallReason::Called));
    /// assert_eq!(why(2), Ok(NoCallReason::EqualQualities));
    /// assert_eq!(why(3), Ok(NoCallReason::BNoCall));
    /// assert_eq!(why(4), Ok(NoCallReason::Outside));
    /// assert_eq!(DuplexConsensusCaller::no_call_reason(None, Some(&b), 3), Ok(NoCallReason::SingleStrand));
    /// ```
    pub fn no_call_reason(
        ab: Option<&VanillaConsensusRead>,
        ba: Option<&VanillaConsensusRead>,
        position: usize,
    ) -> Result<NoCallReason, Refusal> {
        let (a, b) = (GivenStrand::of(ab), GivenStrand::of(ba));
        NoCallReason::of(entries::gedrashiw_no_call_reason_typed(
            u8::from(ab.is_some()),
            a.bases,
            a.quals,
            a.depths,
            a.errors,
            a.evidence.annotation,
            a.evidence.marks,
            a.evidence.unconverted,
            a.evidence.converted,
            u8::from(ba.is_some()),
            b.bases,
            b.quals,
            b.depths,
            b.errors,
            b.evidence.annotation,
            b.evidence.marks,
            b.evidence.unconverted,
            b.evidence.converted,
            position,
        ))
    }
}

impl Record {
    /// The record that the library numbers so: 0 is none.
    pub(crate) fn of(kind: u8, positions: usize) -> Option<Record> {
        let kind = match kind {
            0 => return None,
            1 => Kind::Ab,
            2 => Kind::Ba,
            _ => Kind::Both,
        };
        Some(Record { kind, positions })
    }
}

/// What an entry point takes of a strand that may be missing.
#[derive(Default)]
struct GivenStrand<'a> {
    bases: &'a [u8],
    quals: &'a [u8],
    depths: &'a [u16],
    errors: &'a [u16],
    evidence: Given<'a>,
}

impl<'a> GivenStrand<'a> {
    fn of(strand: Option<&'a VanillaConsensusRead>) -> Self {
        strand.map_or_else(GivenStrand::default, |s| GivenStrand {
            bases: &s.bases,
            quals: &s.quals,
            depths: &s.depths,
            errors: &s.errors,
            evidence: Given::of(s.methylation.as_ref()),
        })
    }

    fn told(&self, present: bool) -> ToldStrand {
        ToldStrand { present: u8::from(present), annotation: self.evidence.annotation }
    }
}

/// The first so many.
pub(crate) fn cut<T>(mut numbers: Vec<T>, positions: usize) -> Vec<T> {
    numbers.truncate(positions);
    numbers
}

/// A strand as it is in a record of so many positions: with the evidence that it keeps there.
fn in_record<'a>(strand: &'a VanillaConsensusRead, n: usize, evidence: EvidenceArrays<'a>) -> VanillaConsensusRead<'a> {
    VanillaConsensusRead {
        bases: Cow::Borrowed(&strand.bases[..n]),
        quals: Cow::Borrowed(&strand.quals[..n]),
        depths: Cow::Borrowed(&strand.depths[..n]),
        errors: Cow::Borrowed(&strand.errors[..n]),
        methylation: strand.methylation.as_ref().map(|m| MethylationAnnotation { evidence: evidence.cut(n), pattern: m.pattern }),
    }
}

/// Outputs for a record.
struct Buffers {
    bases: Vec<u8>,
    quals: Vec<u8>,
    errors: Vec<u16>,
    first: EvidenceArrays<'static>,
    second: EvidenceArrays<'static>,
}

impl Buffers {
    /// For so many positions, or as many as a record may have.
    fn of(positions: usize, annotated: bool) -> Self {
        let places = positions.min(MAX_POSITIONS);
        let evidence = if annotated { places } else { 0 };
        Buffers {
            bases: vec![0; places],
            quals: vec![0; places],
            errors: vec![0; places],
            first: EvidenceArrays::clear(evidence),
            second: EvidenceArrays::clear(evidence),
        }
    }

    fn lent(&mut self) -> (ConsensusOut<'_>, EvidenceOut<'_>, EvidenceOut<'_>) {
        let out = ConsensusOut { bases: &mut self.bases, quals: &mut self.quals, errors: &mut self.errors };
        (out, self.first.as_out(), self.second.as_out())
    }

    fn combined(self, n: usize, a_annotated: bool, b_annotated: bool) -> CombinedStrands {
        CombinedStrands {
            bases: cut(self.bases, n),
            quals: cut(self.quals, n),
            errors: cut(self.errors, n),
            a_evidence: a_annotated.then(|| self.first.cut(n)),
            b_evidence: b_annotated.then(|| self.second.cut(n)),
        }
    }
}

impl DuplexConsensusRead<'_> {
    /// How many positions it has.
    ///
    /// ```
    /// # use gedrashiw::{DuplexConsensusCaller, Settings, VanillaConsensusRead};
    /// let a = VanillaConsensusRead::new(b"ACG", &[30; 3], &[1; 3], &[0; 3]);
    /// let b = VanillaConsensusRead::new(b"AC", &[30; 2], &[1; 2], &[0; 2]);
    /// let record = DuplexConsensusCaller::duplex_consensus(Settings::default(), Some(&a), Some(&b), None)?.expect("both are covered");
    /// assert_eq!(record.len(), 2);
    /// # Ok::<(), gedrashiw::Refusal>(())
    /// ```
    #[must_use]
    pub fn len(&self) -> usize {
        self.bases.len()
    }

    /// Whether it has none, as no record that a call has made.
    ///
    /// ```
    /// # use gedrashiw::{DuplexConsensusCaller, Settings, VanillaConsensusRead};
    /// let a = VanillaConsensusRead::new(b"A", &[30], &[1], &[0]);
    /// let record = DuplexConsensusCaller::duplex_consensus(Settings::default(), Some(&a), None, None)?.expect("it is covered");
    /// assert!(!record.is_empty());
    /// # Ok::<(), gedrashiw::Refusal>(())
    /// ```
    #[must_use]
    pub fn is_empty(&self) -> bool {
        self.bases.is_empty()
    }

    /// The depths of its strands; none of a strand that is not there.
    fn depths(&self) -> (&[u16], &[u16]) {
        (&self.ab_consensus.depths, self.ba_consensus.as_ref().map_or(&[], |b| &b.depths))
    }

    /// The depths of both strands at each position, added, each sum held to 65,535.
    ///
    /// # Errors
    ///
    /// [`Refusal::TooLong`], of a record that no call has made.
    ///
    /// ```
    /// # use gedrashiw::{DuplexConsensusCaller, Settings, VanillaConsensusRead};
    /// let a = VanillaConsensusRead::new(b"AC", &[30; 2], &[1, 40_000], &[0; 2]);
    /// let record = DuplexConsensusCaller::duplex_consensus(Settings::default(), Some(&a), Some(&a), None)?.expect("it is covered");
    /// assert_eq!(record.combined_depths()?, [2, 65_535]);
    /// # Ok::<(), gedrashiw::Refusal>(())
    /// ```
    pub fn combined_depths(&self) -> Result<Vec<u16>, Refusal> {
        let (ab, ba) = self.depths();
        written(self.len(), |out| combined_depths_into(self.len(), ab, ba, out))
    }

    /// The smallest and the largest of these, 0 over no positions.
    ///
    /// # Errors
    ///
    /// [`Refusal::TooLong`], of a record that no call has made.
    ///
    /// ```
    /// # use gedrashiw::{DuplexConsensusCaller, Settings, VanillaConsensusRead};
    /// let a = VanillaConsensusRead::new(b"AC", &[30; 2], &[1, 5], &[0; 2]);
    /// let record = DuplexConsensusCaller::duplex_consensus(Settings::default(), Some(&a), Some(&a), None)?.expect("it is covered");
    /// assert_eq!(record.depth_range()?, (2, 10));
    /// # Ok::<(), gedrashiw::Refusal>(())
    /// ```
    #[inline]
    pub fn depth_range(&self) -> Result<(u16, u16), Refusal> {
        let (ab, ba) = self.depths();
        depth_range(self.len(), ab, ba)
    }

    /// Its metrics.
    ///
    /// # Errors
    ///
    /// [`Refusal::TooLong`], [`Refusal::Ragged`], of a record that no call has made.
    ///
    /// ```
    /// # use gedrashiw::{DuplexConsensusCaller, Settings, VanillaConsensusRead};
    /// let a = VanillaConsensusRead::new(b"ACGT", &[30; 4], &[2; 4], &[0; 4]);
    /// let b = VanillaConsensusRead::new(b"ACTN", &[20, 40, 30, 2], &[1; 4], &[0; 4]);
    /// let record = DuplexConsensusCaller::duplex_consensus(Settings::default(), Some(&a), Some(&b), None)?.expect("both are covered");
    /// let metrics = record.metrics()?;
    /// assert_eq!((metrics.aD, metrics.cD, metrics.cE.to_bits(), metrics.nc), (2, 3, 0x3e2a_aaab, 2));
    /// # Ok::<(), gedrashiw::Refusal>(())
    /// ```
    pub fn metrics(&self) -> Result<Metrics, Refusal> {
        let counts = |s| {
            let VanillaConsensusRead { depths, errors, .. }: &VanillaConsensusRead = s;
            Counts { depths, errors }
        };
        duplex_metrics(counts(&self.ab_consensus), self.ba_consensus.as_ref().map(counts), &self.bases, &self.errors)
    }
}

/// The consensus gate of a record that is given by how many positions it has and by its strands' depths; an absent strand has none.
///
/// # Errors
///
/// As [`DuplexConsensusCaller::duplex_consensus_has_minimum_reads`].
///
/// ```
/// use gedrashiw::duplex_caller::depths_have_minimum_reads;
///
/// assert_eq!(depths_have_minimum_reads(1, &[4, 9], &[1], &[5, 4, 1]), Ok(true));
/// assert_eq!(depths_have_minimum_reads(1, &[4, 9], &[1], &[6]), Ok(false));
/// ```
#[inline]
pub fn depths_have_minimum_reads(
    positions: usize,
    ab_depths: &[u16],
    ba_depths: &[u16],
    min_reads: &[u32],
) -> Result<bool, Refusal> {
    let gate = entries::gedrashiw_duplex_consensus_has_minimum_reads(positions, ab_depths, ba_depths, min_reads);
    told(gate.refused, gate.number != 0)
}

/// Writes [`DuplexConsensusRead::combined_depths`] of a record that is given by how many positions it has and by its strands'
/// depths; answers how many.
///
/// # Errors
///
/// [`Refusal::TooLong`], [`Refusal::OutputTooShort`].
///
/// ```
/// let mut out = [9; 3];
/// assert_eq!(gedrashiw::duplex_caller::combined_depths_into(2, &[4, 5], &[1], &mut out), Ok(2));
/// assert_eq!(out, [5, 5, 9]);
/// ```
#[inline]
pub fn combined_depths_into(positions: usize, ab: &[u16], ba: &[u16], out: &mut [u16]) -> Result<usize, Refusal> {
    let depths = entries::gedrashiw_combined_depths(positions, ab, ba, out);
    told(depths.refused, depths.count)
}

/// [`DuplexConsensusRead::depth_range`] of a record that is given by how many positions it has and by its strands' depths.
///
/// # Errors
///
/// [`Refusal::TooLong`].
///
/// ```
/// assert_eq!(gedrashiw::duplex_caller::depth_range(2, &[4, 5], &[3]), Ok((5, 7)));
/// ```
#[inline]
pub fn depth_range(positions: usize, ab: &[u16], ba: &[u16]) -> Result<(u16, u16), Refusal> {
    let range = entries::gedrashiw_depth_range(positions, ab, ba);
    told(range.refused, (range.min, range.max))
}

/// The figures of a strand that its metrics are of.
///
/// # Errors
///
/// [`Refusal::TooLong`], [`Refusal::Ragged`].
///
/// ```
/// use gedrashiw::duplex_caller::{Counts, StrandFigures, strand_metrics};
///
/// let figures = strand_metrics(Counts { depths: &[40_000, 3], errors: &[1, 0] })?;
/// assert_eq!(figures, StrandFigures { largest: 32_767, smallest: 3, depths: 32_770, errors: 1 });
/// # Ok::<(), gedrashiw::Refusal>(())
/// ```
#[inline]
pub fn strand_metrics(strand: Counts) -> Result<StrandFigures, Refusal> {
    let f = entries::gedrashiw_strand_metrics(strand.depths, strand.errors);
    told(f.refused, StrandFigures { largest: f.largest, smallest: f.smallest, depths: f.depths, errors: f.errors })
}

/// The metrics of a record: of its first strand, of its second, where there is one, and of its own bases and errors.
///
/// # Errors
///
/// [`Refusal::TooLong`], [`Refusal::Ragged`].
///
/// ```
/// use gedrashiw::duplex_caller::{Counts, duplex_metrics};
///
/// let metrics = duplex_metrics(Counts { depths: &[12], errors: &[2] }, None, b"A", &[2])?;
/// assert_eq!((metrics.aD, metrics.bD, metrics.cE.to_bits()), (12, 0, 0x3e2a_aaab));
/// # Ok::<(), gedrashiw::Refusal>(())
/// ```
pub fn duplex_metrics(first: Counts, second: Option<Counts>, bases: &[u8], errors: &[u16]) -> Result<Metrics, Refusal> {
    let b = second.unwrap_or_default();
    let m = entries::gedrashiw_duplex_metrics(
        first.depths,
        first.errors,
        u8::from(second.is_some()),
        b.depths,
        b.errors,
        bases,
        errors,
    );
    let metrics = Metrics {
        aD: m.aD,
        aM: m.aM,
        aE: f32::from_bits(m.aE),
        bD: m.bD,
        bM: m.bM,
        bE: f32::from_bits(m.bE),
        cD: m.cD,
        cM: m.cM,
        cE: f32::from_bits(m.cE),
        nc: m.nc,
    };
    told(m.refused, metrics)
}

/// A strand's bases as its record's sequence shows them: its calls restored to the unconverted base.
///
/// # Errors
///
/// [`Refusal::TooLong`], [`Refusal::Ragged`].
///
/// ```
/// use gedrashiw::VanillaConsensusRead;
/// use gedrashiw::duplex_caller::methylation_strand_bases;
/// use gedrashiw::methylation::{ConversionPattern, EvidenceArrays};
///
/// let strand = VanillaConsensusRead::new(b"TT", &[30; 2], &[4; 2], &[0; 2])
///     .annotated(ConversionPattern::CToT, EvidenceArrays::new(&[1, 0], &[0; 2], &[4; 2]));
/// assert_eq!(methylation_strand_bases(&strand)?, b"CT");
/// # Ok::<(), gedrashiw::Refusal>(())
/// ```
pub fn methylation_strand_bases(strand: &VanillaConsensusRead) -> Result<Vec<u8>, Refusal> {
    written(strand.len(), |out| methylation_strand_bases_into(strand, out))
}

/// Writes [`methylation_strand_bases`]; answers how many.
///
/// # Errors
///
/// [`Refusal::TooLong`], [`Refusal::Ragged`], [`Refusal::OutputTooShort`].
///
/// ```
/// use gedrashiw::VanillaConsensusRead;
/// use gedrashiw::duplex_caller::methylation_strand_bases_into;
///
/// let mut out = *b"...";
/// let strand = VanillaConsensusRead::new(b"TT", &[30; 2], &[4; 2], &[0; 2]);
/// assert_eq!(methylation_strand_bases_into(&strand, &mut out), Ok(2));
/// assert_eq!(&out, b"TT.");
/// ```
pub fn methylation_strand_bases_into(strand: &VanillaConsensusRead, out: &mut [u8]) -> Result<usize, Refusal> {
    let given = Given::of(strand.methylation.as_ref());
    let restored = entries::gedrashiw_methylation_strand_bases(&strand.bases, given.annotation, given.marks, out);
    told(restored.refused, restored.count)
}
