//! Methylation: chemistries, conversion patterns, evidence, and the tags of a strand and of a record.
use crate::entries::{self, as_u16};
use crate::refusal::{Refusal, told};
use crate::vanilla_caller::SourceReads;
use crate::{MAX_POSITIONS, text};
use std::borrow::Cow;

/// The chemistry, which says what a converted base stands for.
#[derive(Clone, Copy, Debug, Default, PartialEq, Eq, Hash)]
#[repr(u8)]
pub enum MethylationMode {
    /// None: no tag is made.
    #[default]
    Disabled = 0,
    /// EM-Seq: the unmethylated base is converted.
    EmSeq = 1,
    /// TAPs: the methylated base is converted.
    Taps = 2,
}

impl MethylationMode {
    /// Whether there is a chemistry.
    ///
    /// ```
    /// use gedrashiw::MethylationMode;
    ///
    /// assert!(MethylationMode::Taps.is_enabled());
    /// assert!(!MethylationMode::default().is_enabled());
    /// ```
    #[must_use]
    #[inline]
    pub fn is_enabled(&self) -> bool {
        entries::gedrashiw_is_enabled(*self as u8).number != 0
    }
}

/// Which conversion a read shows, in the orientation in which it was sequenced.
#[derive(Clone, Copy, Debug, PartialEq, Eq, Hash)]
#[repr(u8)]
pub enum ConversionPattern {
    /// C to T: the first read of a pair, and reads without one.
    CToT = 1,
    /// G to A: the second read of a pair.
    GToA = 2,
}

impl ConversionPattern {
    /// The pattern that the library numbers so: 0 is none.
    pub(crate) fn of_number(number: u8) -> Option<Self> {
        match number {
            0 => None,
            1 => Some(Self::CToT),
            _ => Some(Self::GToA),
        }
    }

    /// The pattern of a read with these SAM flags.
    ///
    /// ```
    /// use gedrashiw::methylation::ConversionPattern;
    ///
    /// assert_eq!(ConversionPattern::from_read_flags(0x41), ConversionPattern::CToT);
    /// assert_eq!(ConversionPattern::from_read_flags(0x81), ConversionPattern::GToA);
    /// ```
    #[must_use]
    #[inline]
    pub fn from_read_flags(read_flags: u16) -> Self {
        Self::of_number(entries::gedrashiw_from_read_flags(read_flags)).expect("a read has a pattern")
    }

    /// The reference base that it is about, that base unconverted, and converted.
    ///
    /// ```
    /// use gedrashiw::methylation::ConversionPattern;
    ///
    /// assert_eq!(ConversionPattern::GToA.bases(), (b'G', b'G', b'A'));
    /// ```
    #[must_use]
    #[inline]
    pub fn bases(self) -> (u8, u8, u8) {
        let bases = entries::gedrashiw_bases(self as u8);
        (bases.reference, bases.unconverted, bases.converted)
    }
}

/// The evidence of one position.
#[derive(Clone, Copy, Debug, Default, PartialEq, Eq, Hash)]
pub struct MethylationEvidence {
    /// Whether the position carries a call of the annotation's pattern.
    pub informative: bool,
    /// How many reads show the unconverted base.
    pub unconverted_count: u32,
    /// How many reads show the converted base.
    pub converted_count: u32,
}

/// The evidence of all positions, an array each; lent by the caller or its own.
///
/// ```
/// use gedrashiw::methylation::{EvidenceArrays, MethylationEvidence};
///
/// let evidence: EvidenceArrays =
///     [MethylationEvidence { informative: true, unconverted_count: 3, converted_count: 1 }].into_iter().collect();
/// assert_eq!(evidence, EvidenceArrays::new(&[1], &[3], &[1]));
/// assert_eq!(evidence.iter().next().unwrap().unconverted_count, 3);
/// ```
#[derive(Clone, Debug, Default, PartialEq, Eq)]
pub struct EvidenceArrays<'a> {
    /// The informative marks: 0 no, any other byte yes.
    pub informative: Cow<'a, [u8]>,
    /// How many reads show the unconverted base.
    pub unconverted_count: Cow<'a, [u32]>,
    /// How many reads show the converted base.
    pub converted_count: Cow<'a, [u32]>,
}

impl<'a> EvidenceArrays<'a> {
    /// Of arrays that the caller lends.
    #[must_use]
    pub const fn new(informative: &'a [u8], unconverted_count: &'a [u32], converted_count: &'a [u32]) -> Self {
        Self {
            informative: Cow::Borrowed(informative),
            unconverted_count: Cow::Borrowed(unconverted_count),
            converted_count: Cow::Borrowed(converted_count),
        }
    }

    /// Of so many positions, clear.
    pub(crate) fn clear(positions: usize) -> EvidenceArrays<'static> {
        EvidenceArrays {
            informative: vec![0; positions].into(),
            unconverted_count: vec![0; positions].into(),
            converted_count: vec![0; positions].into(),
        }
    }

    /// Its first positions.
    pub(crate) fn cut(mut self, positions: usize) -> Self {
        self.informative.to_mut().truncate(positions);
        self.unconverted_count.to_mut().truncate(positions);
        self.converted_count.to_mut().truncate(positions);
        self
    }

    /// Its arrays, to write to.
    ///
    /// ```
    /// use gedrashiw::methylation::{EvidenceArrays, gate_to_informative_into};
    ///
    /// let mut evidence = EvidenceArrays::new(&[0, 5], &[7, 7], &[8, 8]);
    /// assert_eq!(gate_to_informative_into(&mut evidence.as_out()), Ok(2));
    /// assert_eq!(evidence, EvidenceArrays::new(&[0, 1], &[0, 7], &[0, 8]));
    /// ```
    pub fn as_out(&mut self) -> EvidenceOut<'_> {
        EvidenceOut {
            informative: self.informative.to_mut(),
            unconverted_count: self.unconverted_count.to_mut(),
            converted_count: self.converted_count.to_mut(),
        }
    }

    /// The evidence position by position, as far as all arrays reach.
    pub fn iter(&self) -> impl Iterator<Item = MethylationEvidence> {
        let counts = self.unconverted_count.iter().zip(self.converted_count.iter());
        self.informative.iter().zip(counts).map(|(&mark, (&unconverted_count, &converted_count))| MethylationEvidence {
            informative: mark != 0,
            unconverted_count,
            converted_count,
        })
    }
}

impl FromIterator<MethylationEvidence> for EvidenceArrays<'_> {
    fn from_iter<I: IntoIterator<Item = MethylationEvidence>>(positions: I) -> Self {
        let mut evidence = Self::default();
        for e in positions {
            evidence.informative.to_mut().push(u8::from(e.informative));
            evidence.unconverted_count.to_mut().push(e.unconverted_count);
            evidence.converted_count.to_mut().push(e.converted_count);
        }
        evidence
    }
}

/// Where evidence goes: an output each.
#[derive(Debug, Default)]
pub struct EvidenceOut<'a> {
    /// The informative marks: 0 or 1.
    pub informative: &'a mut [u8],
    /// How many reads show the unconverted base.
    pub unconverted_count: &'a mut [u32],
    /// How many reads show the converted base.
    pub converted_count: &'a mut [u32],
}

/// The annotation of a strand.
#[derive(Clone, Debug, PartialEq, Eq)]
pub struct MethylationAnnotation<'a> {
    /// Its evidence, of as many positions as the strand has.
    pub evidence: EvidenceArrays<'a>,
    /// Which conversion its reads show.
    pub pattern: ConversionPattern,
}

/// What an entry point takes of an annotation that may be missing: its number, and its arrays.
#[derive(Default)]
pub(crate) struct Given<'a> {
    pub annotation: u8,
    pub marks: &'a [u8],
    pub unconverted: &'a [u32],
    pub converted: &'a [u32],
}

impl<'a> Given<'a> {
    pub(crate) fn of(annotation: Option<&'a MethylationAnnotation>) -> Self {
        annotation.map_or_else(Given::default, |m| Given {
            annotation: m.pattern as u8,
            marks: &m.evidence.informative,
            unconverted: &m.evidence.unconverted_count,
            converted: &m.evidence.converted_count,
        })
    }
}

/// A vector of so many places, of which a call writes the front; cut to what was written.
pub(crate) fn written<T: Clone + Default>(
    places: usize,
    write: impl FnOnce(&mut [T]) -> Result<usize, Refusal>,
) -> Result<Vec<T>, Refusal> {
    let mut out = vec![T::default(); places];
    let count = write(&mut out)?;
    out.truncate(count);
    Ok(out)
}

impl<'a> MethylationAnnotation<'a> {
    /// The unconverted counts for the `cu` tag, each held to `i16::MAX`.
    ///
    /// # Errors
    ///
    /// [`Refusal::TooLong`].
    ///
    /// ```
    /// use gedrashiw::methylation::{ConversionPattern, EvidenceArrays, MethylationAnnotation};
    ///
    /// let evidence = EvidenceArrays::new(&[1, 0], &[3, 70_000], &[1, 0]);
    /// let annotation = MethylationAnnotation { evidence, pattern: ConversionPattern::CToT };
    /// assert_eq!(annotation.unconverted_counts()?, [3, 32_767]);
    /// # Ok::<(), gedrashiw::Refusal>(())
    /// ```
    pub fn unconverted_counts(&self) -> Result<Vec<i16>, Refusal> {
        written(self.evidence.unconverted_count.len(), |out| self.unconverted_counts_into(out))
    }

    /// Writes the unconverted counts; answers how many.
    ///
    /// # Errors
    ///
    /// [`Refusal::TooLong`], [`Refusal::OutputTooShort`].
    ///
    /// ```
    /// # use gedrashiw::methylation::{ConversionPattern, EvidenceArrays, MethylationAnnotation};
    /// # let evidence = EvidenceArrays::new(&[1, 0], &[3, 70_000], &[1, 0]);
    /// # let annotation = MethylationAnnotation { evidence, pattern: ConversionPattern::CToT };
    /// let mut out = [-1; 3];
    /// assert_eq!(annotation.unconverted_counts_into(&mut out), Ok(2));
    /// assert_eq!(out, [3, 32_767, -1]);
    /// ```
    #[inline]
    pub fn unconverted_counts_into(&self, out: &mut [i16]) -> Result<usize, Refusal> {
        let counts = entries::gedrashiw_unconverted_counts(&self.evidence.unconverted_count, as_u16(out));
        told(counts.refused, counts.count)
    }

    /// The converted counts for the `ct` tag, each held to `i16::MAX`.
    ///
    /// # Errors
    ///
    /// [`Refusal::TooLong`].
    ///
    /// ```
    /// # use gedrashiw::methylation::{ConversionPattern, EvidenceArrays, MethylationAnnotation};
    /// # let evidence = EvidenceArrays::new(&[1, 0], &[3, 70_000], &[1, 0]);
    /// # let annotation = MethylationAnnotation { evidence, pattern: ConversionPattern::CToT };
    /// assert_eq!(annotation.converted_counts()?, [1, 0]);
    /// # Ok::<(), gedrashiw::Refusal>(())
    /// ```
    pub fn converted_counts(&self) -> Result<Vec<i16>, Refusal> {
        written(self.evidence.converted_count.len(), |out| self.converted_counts_into(out))
    }

    /// Writes the converted counts; answers how many.
    ///
    /// # Errors
    ///
    /// [`Refusal::TooLong`], [`Refusal::OutputTooShort`].
    ///
    /// ```
    /// # use gedrashiw::methylation::{ConversionPattern, EvidenceArrays, MethylationAnnotation};
    /// # let evidence = EvidenceArrays::new(&[1, 0], &[3, 70_000], &[1, 0]);
    /// # let annotation = MethylationAnnotation { evidence, pattern: ConversionPattern::CToT };
    /// assert_eq!(annotation.converted_counts_into(&mut [0]), Err(gedrashiw::Refusal::OutputTooShort));
    /// ```
    #[inline]
    pub fn converted_counts_into(&self, out: &mut [i16]) -> Result<usize, Refusal> {
        let counts = entries::gedrashiw_converted_counts(&self.evidence.converted_count, as_u16(out));
        told(counts.refused, counts.count)
    }

    /// The annotation of its first `len` positions, or of all.
    ///
    /// # Errors
    ///
    /// [`Refusal::TooLong`], [`Refusal::Ragged`].
    ///
    /// ```
    /// # use gedrashiw::methylation::{ConversionPattern, EvidenceArrays, MethylationAnnotation};
    /// # let evidence = EvidenceArrays::new(&[1, 0], &[3, 70_000], &[1, 0]);
    /// # let annotation = MethylationAnnotation { evidence, pattern: ConversionPattern::CToT };
    /// assert_eq!(annotation.truncate(1)?.evidence, EvidenceArrays::new(&[1], &[3], &[1]));
    /// # Ok::<(), gedrashiw::Refusal>(())
    /// ```
    pub fn truncate(&self, len: usize) -> Result<MethylationAnnotation<'static>, Refusal> {
        let mut evidence = EvidenceArrays::clear(len.min(self.evidence.informative.len()));
        let count = self.truncate_into(len, &mut evidence.as_out())?;
        Ok(MethylationAnnotation { evidence: evidence.cut(count), pattern: self.pattern })
    }

    /// Writes the evidence of the first `len` positions, or of all; answers how many.
    ///
    /// # Errors
    ///
    /// [`Refusal::TooLong`], [`Refusal::Ragged`], [`Refusal::OutputTooShort`].
    ///
    /// ```
    /// # use gedrashiw::methylation::{ConversionPattern, EvidenceArrays, EvidenceOut, MethylationAnnotation};
    /// # let evidence = EvidenceArrays::new(&[1, 0], &[3, 70_000], &[1, 0]);
    /// # let annotation = MethylationAnnotation { evidence, pattern: ConversionPattern::CToT };
    /// let (mut marks, mut unconverted, mut converted) = ([9; 3], [9; 3], [9; 3]);
    /// let mut out = EvidenceOut {
    ///     informative: &mut marks,
    ///     unconverted_count: &mut unconverted,
    ///     converted_count: &mut converted,
    /// };
    /// assert_eq!(annotation.truncate_into(5, &mut out), Ok(2));
    /// assert_eq!((marks, unconverted, converted), ([1, 0, 9], [3, 70_000, 9], [1, 0, 9]));
    /// ```
    pub fn truncate_into(&self, len: usize, out: &mut EvidenceOut) -> Result<usize, Refusal> {
        let given = Given::of(Some(self));
        let truncated = entries::gedrashiw_truncate(
            given.marks,
            given.unconverted,
            given.converted,
            len,
            out.informative,
            out.unconverted_count,
            out.converted_count,
        );
        told(truncated.refused, truncated.count)
    }
}

/// Whether a position of the reference is of a CpG: of the top strand a C before a G, of the bottom strand a G behind a C.
///
/// ```
/// use gedrashiw::methylation::is_cpg_context;
///
/// assert!(is_cpg_context(b"ACGT", 1, true));
/// assert!(is_cpg_context(b"ACGT", 2, false));
/// assert!(!is_cpg_context(b"ACGT", 2, true));
/// ```
#[must_use]
#[inline]
pub fn is_cpg_context(ref_seq: &[u8], pos: usize, is_top_strand: bool) -> bool {
    entries::gedrashiw_is_cpg_context(ref_seq, pos, u8::from(is_top_strand)) != 0
}

/// Marks the consensus positions whose reference base is the pattern's, and counts there the aligned reads that show it unconverted
/// and converted; with `count_all_positions` every base of every read. `reference` has a byte for each consensus position, 0 where
/// there is none; the mark of a read's base lies in `aligned` where the base lies among the reads' bytes, and 0 is not aligned.
///
/// # Errors
///
/// [`Refusal::TooLong`], [`Refusal::TooManyReads`], [`Refusal::PartOutside`].
///
/// ```
/// use gedrashiw::methylation::{ConversionPattern, EvidenceArrays, annotate_simplex_methylation};
/// use gedrashiw::{SourceRead, SourceReads};
///
/// let reads = [SourceRead { flags: 0x41, offset: 0, length: 3 }, SourceRead { flags: 0x41, offset: 3, length: 3 }];
/// let reads = SourceReads { reads: &reads, bytes: b"ACGATG" };
/// let annotation = annotate_simplex_methylation(3, reads, b"ACG", ConversionPattern::CToT, &[1; 6], false)?;
/// assert_eq!(annotation.evidence, EvidenceArrays::new(&[0, 1, 0], &[0, 1, 0], &[0, 1, 0]));
/// # Ok::<(), gedrashiw::Refusal>(())
/// ```
pub fn annotate_simplex_methylation(
    consensus_len: usize,
    source_reads: SourceReads,
    reference: &[u8],
    pattern: ConversionPattern,
    aligned: &[u8],
    count_all_positions: bool,
) -> Result<MethylationAnnotation<'static>, Refusal> {
    let mut evidence = EvidenceArrays::clear(consensus_len.min(MAX_POSITIONS));
    let out = &mut evidence.as_out();
    annotate_simplex_methylation_into(consensus_len, source_reads, reference, pattern, aligned, count_all_positions, out)?;
    Ok(MethylationAnnotation { evidence, pattern })
}

/// Writes the evidence of [`annotate_simplex_methylation`]; answers of how many positions.
///
/// # Errors
///
/// [`Refusal::TooLong`], [`Refusal::TooManyReads`], [`Refusal::PartOutside`], [`Refusal::OutputTooShort`].
///
/// ```
/// use gedrashiw::methylation::{ConversionPattern, EvidenceOut, annotate_simplex_methylation_into};
/// use gedrashiw::{SourceRead, SourceReads};
///
/// let reads = SourceReads { reads: &[SourceRead { flags: 0x81, offset: 0, length: 2 }], bytes: b"AG" };
/// let (mut marks, mut unconverted, mut converted) = ([9; 2], [9; 2], [9; 2]);
/// let mut out = EvidenceOut {
///     informative: &mut marks,
///     unconverted_count: &mut unconverted,
///     converted_count: &mut converted,
/// };
/// let pattern = ConversionPattern::GToA;
/// assert_eq!(annotate_simplex_methylation_into(2, reads, b"GG", pattern, &[], true, &mut out), Ok(2));
/// assert_eq!((marks, unconverted, converted), ([1, 1], [0, 1], [1, 0]));
/// ```
pub fn annotate_simplex_methylation_into(
    consensus_len: usize,
    source_reads: SourceReads,
    reference: &[u8],
    pattern: ConversionPattern,
    aligned: &[u8],
    count_all_positions: bool,
    out: &mut EvidenceOut,
) -> Result<usize, Refusal> {
    let annotated = entries::gedrashiw_annotate_simplex_methylation(
        consensus_len,
        source_reads.reads,
        source_reads.bytes,
        reference,
        pattern as u8,
        aligned,
        u8::from(count_all_positions),
        out.informative,
        out.unconverted_count,
        out.converted_count,
    );
    told(annotated.refused, annotated.count)
}

/// Clears the evidence where it is not informative, in place, and writes other marks as 1.
///
/// # Errors
///
/// [`Refusal::TooLong`], [`Refusal::Ragged`].
///
/// ```
/// use gedrashiw::methylation::{ConversionPattern, EvidenceArrays, MethylationAnnotation, gate_to_informative};
///
/// let evidence = EvidenceArrays::new(&[0, 5], &[7, 7], &[8, 8]);
/// let mut annotation = MethylationAnnotation { evidence, pattern: ConversionPattern::CToT };
/// gate_to_informative(&mut annotation)?;
/// assert_eq!(annotation.evidence, EvidenceArrays::new(&[0, 1], &[0, 7], &[0, 8]));
/// # Ok::<(), gedrashiw::Refusal>(())
/// ```
pub fn gate_to_informative(annotation: &mut MethylationAnnotation) -> Result<(), Refusal> {
    gate_to_informative_into(&mut annotation.evidence.as_out()).map(drop)
}

/// [`gate_to_informative`] of the caller's own arrays; answers how many positions they have.
///
/// # Errors
///
/// [`Refusal::TooLong`], [`Refusal::Ragged`].
///
/// ```
/// use gedrashiw::methylation::{EvidenceOut, gate_to_informative_into};
///
/// let (mut marks, mut unconverted, mut converted) = ([0, 1], [7, 7], [8, 8]);
/// let mut evidence = EvidenceOut {
///     informative: &mut marks,
///     unconverted_count: &mut unconverted,
///     converted_count: &mut converted,
/// };
/// assert_eq!(gate_to_informative_into(&mut evidence), Ok(2));
/// assert_eq!((marks, unconverted, converted), ([0, 1], [0, 7], [0, 8]));
/// ```
pub fn gate_to_informative_into(evidence: &mut EvidenceOut) -> Result<usize, Refusal> {
    let gated =
        entries::gedrashiw_gate_to_informative(evidence.informative, evidence.unconverted_count, evidence.converted_count);
    told(gated.refused, gated.count)
}

/// Restores converted bases to the unconverted one at the annotation's informative positions, in place; answers how many positions
/// there are.
///
/// # Errors
///
/// [`Refusal::TooLong`], [`Refusal::Ragged`].
///
/// ```
/// use gedrashiw::methylation::{ConversionPattern, EvidenceArrays, MethylationAnnotation, restore_unconverted_bases};
///
/// let evidence = EvidenceArrays::new(&[1, 0, 1], &[0; 3], &[1; 3]);
/// let annotation = MethylationAnnotation { evidence, pattern: ConversionPattern::CToT };
/// let mut bases = *b"TTt";
/// assert_eq!(restore_unconverted_bases(&mut bases, &annotation), Ok(3));
/// assert_eq!(&bases, b"CTC");
/// ```
pub fn restore_unconverted_bases(consensus_bases: &mut [u8], annotation: &MethylationAnnotation) -> Result<usize, Refusal> {
    let marks = &annotation.evidence.informative;
    let restored = entries::gedrashiw_restore_unconverted_bases(consensus_bases, annotation.pattern as u8, marks);
    told(restored.refused, restored.count)
}

/// The counts of two strands added at each of so many positions, each sum held to `i16::MAX`; a strand that ends before adds none.
///
/// # Errors
///
/// [`Refusal::TooLong`].
///
/// ```
/// assert_eq!(gedrashiw::methylation::summed_counts(3, &[1, 32_767, 7], &[2, 1])?, [3, 32_767, 7]);
/// # Ok::<(), gedrashiw::Refusal>(())
/// ```
pub fn summed_counts(positions: usize, a: &[u32], b: &[u32]) -> Result<Vec<i16>, Refusal> {
    written(positions.min(MAX_POSITIONS), |out| summed_counts_into(positions, a, b, out))
}

/// Writes [`summed_counts`]; answers how many.
///
/// # Errors
///
/// [`Refusal::TooLong`], [`Refusal::OutputTooShort`].
///
/// ```
/// let mut out = [-1; 3];
/// assert_eq!(gedrashiw::methylation::summed_counts_into(2, &[1, 5], &[2, 1], &mut out), Ok(2));
/// assert_eq!(out, [3, 6, -1]);
/// ```
pub fn summed_counts_into(positions: usize, a: &[u32], b: &[u32], out: &mut [i16]) -> Result<usize, Refusal> {
    let summed = entries::gedrashiw_summed_counts(positions, a, b, as_u16(out));
    told(summed.refused, summed.count)
}

/// How many bytes of each output are written.
#[derive(Clone, Copy, Debug, PartialEq, Eq)]
pub struct TagLengths {
    /// Of the MM text.
    pub mm: usize,
    /// Of the ML array.
    pub ml: usize,
}

/// The most bytes of a strand's MM text.
const fn longest_mm(positions: usize) -> usize {
    5 + 5 * positions
}

/// The MM text and the ML array of a strand; `None` where no base is called or the mode is [`MethylationMode::Disabled`].
///
/// # Errors
///
/// [`Refusal::TooLong`], [`Refusal::Ragged`].
///
/// ```
/// use gedrashiw::MethylationMode;
/// use gedrashiw::methylation::{ConversionPattern, EvidenceArrays, MethylationAnnotation, build_mm_ml_tags};
///
/// let evidence = EvidenceArrays::new(&[0, 1, 1], &[0, 3, 4], &[0, 1, 0]);
/// let annotation = MethylationAnnotation { evidence, pattern: ConversionPattern::CToT };
/// let tags = build_mm_ml_tags(b"CCC", &annotation, MethylationMode::EmSeq)?;
/// assert_eq!(tags, Some(("C+m?,1,0;".to_string(), vec![192, 255])));
/// assert_eq!(build_mm_ml_tags(b"CCC", &annotation, MethylationMode::Disabled)?, None);
/// # Ok::<(), gedrashiw::Refusal>(())
/// ```
pub fn build_mm_ml_tags(
    consensus_bases: &[u8],
    annotation: &MethylationAnnotation,
    methylation_mode: MethylationMode,
) -> Result<Option<(String, Vec<u8>)>, Refusal> {
    let positions = consensus_bases.len().min(MAX_POSITIONS);
    let (mut mm, mut ml) = (vec![0; longest_mm(positions)], vec![0; positions]);
    let lengths = build_mm_ml_tags_into(consensus_bases, annotation, methylation_mode, &mut mm, &mut ml)?;
    Ok(lengths.map(|lengths| {
        ml.truncate(lengths.ml);
        (text(mm, lengths.mm), ml)
    }))
}

/// Writes the MM text and the ML array of a strand; `None` where there is no tag. The text has at most 5 bytes and 5 for each
/// position, ML one for each.
///
/// # Errors
///
/// [`Refusal::TooLong`], [`Refusal::Ragged`], [`Refusal::OutputTooShort`].
///
/// ```
/// use gedrashiw::MethylationMode;
/// use gedrashiw::methylation::{
///     ConversionPattern, EvidenceArrays, MethylationAnnotation, TagLengths, build_mm_ml_tags_into,
/// };
///
/// let evidence = EvidenceArrays::new(&[1], &[3], &[1]);
/// let annotation = MethylationAnnotation { evidence, pattern: ConversionPattern::GToA };
/// let (mut mm, mut ml) = ([b'.'; 10], [9; 2]);
/// let lengths = build_mm_ml_tags_into(b"g", &annotation, MethylationMode::Taps, &mut mm, &mut ml)?;
/// assert_eq!(lengths, Some(TagLengths { mm: 7, ml: 1 }));
/// assert_eq!((&mm, ml), (b"G-m?,0;...", [64, 9]));
/// # Ok::<(), gedrashiw::Refusal>(())
/// ```
pub fn build_mm_ml_tags_into(
    consensus_bases: &[u8],
    annotation: &MethylationAnnotation,
    methylation_mode: MethylationMode,
    mm: &mut [u8],
    ml: &mut [u8],
) -> Result<Option<TagLengths>, Refusal> {
    let given = Given::of(Some(annotation));
    let tags = entries::gedrashiw_build_mm_ml_tags(
        consensus_bases,
        given.annotation,
        given.marks,
        given.unconverted,
        given.converted,
        methylation_mode as u8,
        mm,
        ml,
    );
    told(tags.refused, (tags.tagged != 0).then_some(TagLengths { mm: tags.mm, ml: tags.ml }))
}

/// The MM text of a strand alone, for the `am` and `bm` tags.
///
/// # Errors
///
/// [`Refusal::TooLong`], [`Refusal::Ragged`].
///
/// ```
/// use gedrashiw::MethylationMode;
/// use gedrashiw::methylation::{ConversionPattern, EvidenceArrays, MethylationAnnotation, build_mm_tag_no_ml};
///
/// let evidence = EvidenceArrays::new(&[0, 1], &[0, 3], &[0, 1]);
/// let annotation = MethylationAnnotation { evidence, pattern: ConversionPattern::CToT };
/// assert_eq!(build_mm_tag_no_ml(b"CC", &annotation, MethylationMode::Taps)?.as_deref(), Some("C+m?,1;"));
/// # Ok::<(), gedrashiw::Refusal>(())
/// ```
pub fn build_mm_tag_no_ml(
    consensus_bases: &[u8],
    annotation: &MethylationAnnotation,
    methylation_mode: MethylationMode,
) -> Result<Option<String>, Refusal> {
    let mut mm = vec![0; longest_mm(consensus_bases.len().min(MAX_POSITIONS))];
    let length = build_mm_tag_no_ml_into(consensus_bases, annotation, methylation_mode, &mut mm)?;
    Ok(length.map(|length| text(mm, length)))
}

/// Writes the MM text of a strand alone; answers its length, `None` where there is no tag.
///
/// # Errors
///
/// [`Refusal::TooLong`], [`Refusal::Ragged`], [`Refusal::OutputTooShort`].
///
/// ```
/// use gedrashiw::MethylationMode;
/// use gedrashiw::methylation::{ConversionPattern, EvidenceArrays, MethylationAnnotation, build_mm_tag_no_ml_into};
///
/// let evidence = EvidenceArrays::new(&[0, 1], &[0, 3], &[0, 1]);
/// let annotation = MethylationAnnotation { evidence, pattern: ConversionPattern::CToT };
/// let mut mm = [b'.'; 8];
/// assert_eq!(build_mm_tag_no_ml_into(b"CC", &annotation, MethylationMode::EmSeq, &mut mm), Ok(Some(7)));
/// assert_eq!(&mm, b"C+m?,1;.");
/// ```
pub fn build_mm_tag_no_ml_into(
    consensus_bases: &[u8],
    annotation: &MethylationAnnotation,
    methylation_mode: MethylationMode,
    mm: &mut [u8],
) -> Result<Option<usize>, Refusal> {
    let given = Given::of(Some(annotation));
    let tags = entries::gedrashiw_build_mm_tag_no_ml(
        consensus_bases,
        given.annotation,
        given.marks,
        given.unconverted,
        given.converted,
        methylation_mode as u8,
        mm,
    );
    told(tags.refused, (tags.tagged != 0).then_some(tags.mm))
}

/// The methylation tags of one strand of a record. Counts are numbers, or bytes (`N` is u8), two of them a count.
#[derive(Clone, Debug, PartialEq, Eq)]
pub struct StrandMethylationTags<N = i16> {
    /// Its MM text (`am`, `bm`), where it has a call.
    pub mm: Option<String>,
    /// Its unconverted counts (`au`, `bu`).
    pub unconverted: Vec<N>,
    /// Its converted counts (`at`, `bt`).
    pub converted: Vec<N>,
}

/// A record's sequence and its methylation tags. Counts are numbers, or bytes (`N` is u8), two of them a count.
#[derive(Clone, Debug, PartialEq, Eq)]
pub struct DuplexMethylationTags<N = i16> {
    /// The sequence, each strand's calls restored to the unconverted base.
    pub seq: Vec<u8>,
    /// Of each annotation that was given, in strand order.
    pub strands: Vec<StrandMethylationTags<N>>,
    /// The combined MM and ML, C-to-T groups first, where a strand has a call.
    pub mm_ml: Option<(String, Vec<u8>)>,
    /// The strands' unconverted counts, added (`cu`).
    pub unconverted: Vec<N>,
    /// The strands' converted counts, added (`ct`).
    pub converted: Vec<N>,
}

/// Where the counts of a strand go, or those of both: as numbers, or as bytes (`N` is u8), two of them a count.
#[derive(Debug, Default)]
pub struct CountsOut<'a, N = i16> {
    /// Unconverted counts.
    pub unconverted: &'a mut [N],
    /// Converted counts.
    pub converted: &'a mut [N],
}

/// Where a record's sequence and tags go. Nothing goes to the outputs of an annotation that is missing.
#[derive(Debug, Default)]
pub struct DuplexTagsOut<'a, N = i16> {
    /// The sequence.
    pub seq: &'a mut [u8],
    /// The first strand's MM text: at most 5 bytes and 5 for each position.
    pub a_mm: &'a mut [u8],
    /// The second strand's.
    pub b_mm: &'a mut [u8],
    /// The combined MM text: at most twice that.
    pub mm: &'a mut [u8],
    /// The combined ML array: at most 2 for each position.
    pub ml: &'a mut [u8],
    /// The first strand's counts.
    pub a: CountsOut<'a, N>,
    /// The second strand's counts.
    pub b: CountsOut<'a, N>,
    /// The counts of both, added.
    pub both: CountsOut<'a, N>,
}

/// How much of each output is written; 0 for a tag that is not there.
#[derive(Clone, Copy, Debug, PartialEq, Eq)]
pub struct DuplexTagLengths {
    /// Of the sequence, and of each array of counts.
    pub positions: usize,
    /// Of the first strand's MM text.
    pub a_mm: usize,
    /// Of the second strand's.
    pub b_mm: usize,
    /// Of the combined MM text.
    pub mm: usize,
    /// Of the combined ML array.
    pub ml: usize,
}

impl DuplexTagLengths {
    /// As an entry answered.
    pub(crate) fn of(tags: entries::DuplexTags) -> Result<Self, Refusal> {
        let entries::DuplexTags { refused, positions, a_mm, b_mm, mm, ml } = tags;
        told(refused, DuplexTagLengths { positions, a_mm, b_mm, mm, ml })
    }
}

/// The sequence and the methylation tags of a record, from its consensus bases and the annotations of its strands, in strand order:
/// none, one or two.
///
/// # Errors
///
/// [`Refusal::TooLong`], [`Refusal::Ragged`].
///
/// ```
/// use gedrashiw::MethylationMode;
/// use gedrashiw::methylation::{ConversionPattern, EvidenceArrays, MethylationAnnotation, duplex_methylation_tags};
///
/// let ga = MethylationAnnotation {
///     evidence: EvidenceArrays::new(&[0, 1], &[0, 2], &[0, 2]),
///     pattern: ConversionPattern::GToA,
/// };
/// let ct = MethylationAnnotation {
///     evidence: EvidenceArrays::new(&[1, 0], &[3, 0], &[1, 0]),
///     pattern: ConversionPattern::CToT,
/// };
/// let tags = duplex_methylation_tags(b"TG", Some(&ga), Some(&ct), MethylationMode::EmSeq)?;
/// assert_eq!(tags.seq, b"CG");
/// assert_eq!(tags.mm_ml, Some(("C+m?,0;G-m?,0;".to_string(), vec![192, 128])));
/// assert_eq!(tags.strands[0].mm.as_deref(), Some("G-m?,0;"));
/// assert_eq!((tags.unconverted, tags.converted), (vec![3, 2], vec![1, 2]));
/// # Ok::<(), gedrashiw::Refusal>(())
/// ```
pub fn duplex_methylation_tags(
    bases: &[u8],
    a: Option<&MethylationAnnotation>,
    b: Option<&MethylationAnnotation>,
    methylation_mode: MethylationMode,
) -> Result<DuplexMethylationTags, Refusal> {
    TagBuffers::of(bases, 1)
        .written(a.is_some(), b.is_some(), |out| duplex_methylation_tags_into(bases, a, b, methylation_mode, out))
}

/// Vectors for the sequence and the tags of a record.
pub(crate) struct TagBuffers<N> {
    seq: Vec<u8>,
    a_mm: Vec<u8>,
    b_mm: Vec<u8>,
    mm: Vec<u8>,
    ml: Vec<u8>,
    of_a: (Vec<N>, Vec<N>),
    of_b: (Vec<N>, Vec<N>),
    of_both: (Vec<N>, Vec<N>),
}

impl<N: Clone + Default> TagBuffers<N> {
    /// For a record of these bases, or of as many as it may have; with so many places for each count.
    pub(crate) fn of(bases: &[u8], each: usize) -> Self {
        let positions = bases.len().min(MAX_POSITIONS);
        let longest = longest_mm(positions);
        let counts = || (vec![N::default(); each * positions], vec![N::default(); each * positions]);
        TagBuffers {
            seq: vec![0; positions],
            a_mm: vec![0; longest],
            b_mm: vec![0; longest],
            mm: vec![0; 2 * longest],
            ml: vec![0; 2 * positions],
            of_a: counts(),
            of_b: counts(),
            of_both: counts(),
        }
    }

    /// What a call writes to them, of the annotations that are there.
    pub(crate) fn written(
        mut self,
        a: bool,
        b: bool,
        write: impl FnOnce(&mut DuplexTagsOut<N>) -> Result<DuplexTagLengths, Refusal>,
    ) -> Result<DuplexMethylationTags<N>, Refusal> {
        let lengths = write(&mut DuplexTagsOut {
            seq: &mut self.seq,
            a_mm: &mut self.a_mm,
            b_mm: &mut self.b_mm,
            mm: &mut self.mm,
            ml: &mut self.ml,
            a: CountsOut { unconverted: &mut self.of_a.0, converted: &mut self.of_a.1 },
            b: CountsOut { unconverted: &mut self.of_b.0, converted: &mut self.of_b.1 },
            both: CountsOut { unconverted: &mut self.of_both.0, converted: &mut self.of_both.1 },
        })?;
        let tag = |mm: Vec<u8>, length: usize| (length != 0).then(|| text(mm, length));
        let strand = |mm: Option<String>, (unconverted, converted)| StrandMethylationTags { mm, unconverted, converted };
        let first = a.then(|| strand(tag(self.a_mm, lengths.a_mm), self.of_a));
        let second = b.then(|| strand(tag(self.b_mm, lengths.b_mm), self.of_b));
        self.ml.truncate(lengths.ml);
        Ok(DuplexMethylationTags {
            seq: self.seq,
            strands: first.into_iter().chain(second).collect(),
            mm_ml: tag(self.mm, lengths.mm).map(|mm| (mm, self.ml)),
            unconverted: self.of_both.0,
            converted: self.of_both.1,
        })
    }
}

/// Writes what [`duplex_methylation_tags`] returns; answers how much of each output is written.
///
/// # Errors
///
/// [`Refusal::TooLong`], [`Refusal::Ragged`], [`Refusal::OutputTooShort`].
///
/// ```
/// use gedrashiw::MethylationMode;
/// use gedrashiw::methylation::{CountsOut, DuplexTagsOut, duplex_methylation_tags_into};
///
/// let (mut seq, mut unconverted, mut converted) = ([b'.'; 4], [-1; 4], [-1; 4]);
/// let both = CountsOut { unconverted: &mut unconverted, converted: &mut converted };
/// let mut out = DuplexTagsOut { seq: &mut seq, both, ..Default::default() };
/// let lengths = duplex_methylation_tags_into(b"ACT", None, None, MethylationMode::EmSeq, &mut out)?;
/// assert_eq!((lengths.positions, lengths.mm, lengths.ml), (3, 0, 0));
/// assert_eq!((&seq, unconverted), (b"ACT.", [0, 0, 0, -1]));
/// # Ok::<(), gedrashiw::Refusal>(())
/// ```
pub fn duplex_methylation_tags_into(
    bases: &[u8],
    a: Option<&MethylationAnnotation>,
    b: Option<&MethylationAnnotation>,
    methylation_mode: MethylationMode,
    out: &mut DuplexTagsOut,
) -> Result<DuplexTagLengths, Refusal> {
    let (a, b) = (Given::of(a), Given::of(b));
    let tags = entries::gedrashiw_duplex_methylation_tags(
        bases,
        a.annotation,
        a.marks,
        a.unconverted,
        a.converted,
        b.annotation,
        b.marks,
        b.unconverted,
        b.converted,
        methylation_mode as u8,
        out.seq,
        out.a_mm,
        out.b_mm,
        out.mm,
        out.ml,
        as_u16(out.a.unconverted),
        as_u16(out.a.converted),
        as_u16(out.b.unconverted),
        as_u16(out.b.converted),
        as_u16(out.both.unconverted),
        as_u16(out.both.converted),
    );
    DuplexTagLengths::of(tags)
}
