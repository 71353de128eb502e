//! The calls on numbers given as bytes, low byte first, which C programs that keep molecules encoded use. Lengths are in bytes.
use crate::MAX_POSITIONS;
use crate::duplex_caller::{Kind, Record, cut};
use crate::entries::{self, RecordOfBytes, ToldEncodedMolecule, ToldEncodedStrand};
use crate::methylation::{
    ConversionPattern, CountsOut, DuplexMethylationTags, DuplexTagLengths, DuplexTagsOut, MethylationMode, TagBuffers,
};
use crate::reason::NoCallReason;
use crate::refusal::{Refusal, told};
use crate::settings::Settings;

/// The bytes of the metrics: ten numbers of 32 bits, aD, aM, aE, bD, bM, bE, cD, cM, cE and nc; the rates are their bits.
pub const METRICS_BYTES: usize = 40;

/// The bytes of a position's evidence: the informative mark, and two numbers of 32 bits, unconverted and converted.
pub const EVIDENCE_BYTES: usize = 9;

/// The depths and errors of a strand: numbers of 16 bits.
#[derive(Clone, Copy, Debug, Default)]
pub struct CountBytes<'a> {
    /// Its depths.
    pub depths: &'a [u8],
    /// Its errors.
    pub errors: &'a [u8],
}

/// A strand.
#[derive(Clone, Copy, Debug, Default)]
pub struct StrandBytes<'a> {
    /// A byte each.
    pub bases: &'a [u8],
    /// A byte each.
    pub quals: &'a [u8],
    /// Depths and errors.
    pub counts: CountBytes<'a>,
    /// Its annotation, if it has one: its pattern, and its evidence, nine bytes a position.
    pub annotation: Option<(ConversionPattern, &'a [u8])>,
}

/// Where a record goes.
#[derive(Debug, Default)]
pub struct RecordBytesOut<'a> {
    /// A byte each.
    pub bases: &'a mut [u8],
    /// A byte each.
    pub quals: &'a mut [u8],
    /// Numbers of 16 bits.
    pub errors: &'a mut [u8],
    /// The evidence of the record's first strand, where that is annotated.
    pub first_evidence: &'a mut [u8],
    /// The evidence of its second strand, where there is one and it is annotated.
    pub second_evidence: &'a mut [u8],
}

/// A record.
#[derive(Clone, Debug, PartialEq, Eq)]
pub struct RecordBytes {
    /// Which strands it is of.
    pub kind: Kind,
    /// A byte each.
    pub bases: Vec<u8>,
    /// A byte each.
    pub quals: Vec<u8>,
    /// Numbers of 16 bits.
    pub errors: Vec<u8>,
    /// The evidence of the record's first strand, where that is annotated.
    pub first_evidence: Option<Vec<u8>>,
    /// The evidence of its second strand, where there is one and it is annotated.
    pub second_evidence: Option<Vec<u8>>,
}

/// Where the counts of a strand go, or those of both: numbers of 16 bits.
pub type CountBytesOut<'a> = CountsOut<'a, u8>;

/// Where a record's sequence and tags go, its counts as bytes.
pub type TagBytesOut<'a> = DuplexTagsOut<'a, u8>;

/// The metrics of a record, of bytes.
///
/// # Errors
///
/// [`Refusal::Broken`], [`Refusal::TooLong`], [`Refusal::Ragged`].
///
/// ```
/// use gedrashiw::bytes::{CountBytes, metrics};
///
/// let out = metrics(CountBytes { depths: &[12, 0], errors: &[2, 0] }, None, b"A", &[2, 0])?;
/// assert_eq!((&out[..4], &out[32..36]), (&[12, 0, 0, 0][..], &0x3e2a_aaab_u32.to_le_bytes()[..]));
/// # Ok::<(), gedrashiw::Refusal>(())
/// ```
pub fn metrics(
    first: CountBytes,
    second: Option<CountBytes>,
    bases: &[u8],
    errors: &[u8],
) -> Result<[u8; METRICS_BYTES], Refusal> {
    let mut out = [0; METRICS_BYTES];
    metrics_into(first, second, bases, errors, &mut out).map(|()| out)
}

/// Writes [`metrics`].
///
/// # Errors
///
/// [`Refusal::Broken`], [`Refusal::TooLong`], [`Refusal::Ragged`], [`Refusal::OutputTooShort`].
///
/// ```
/// use gedrashiw::Refusal;
/// use gedrashiw::bytes::{CountBytes, metrics_into};
///
/// let strand = CountBytes { depths: &[12, 0], errors: &[2, 0] };
/// assert_eq!(metrics_into(strand, None, b"A", &[2, 0], &mut [0; 39]), Err(Refusal::OutputTooShort));
/// assert_eq!(metrics_into(strand, None, b"A", &[2], &mut [0; 40]), Err(Refusal::Broken));
/// ```
pub fn metrics_into(
    first: CountBytes,
    second: Option<CountBytes>,
    bases: &[u8],
    errors: &[u8],
    out: &mut [u8],
) -> Result<(), Refusal> {
    let b = second.unwrap_or_default();
    let refused = entries::gedrashiw_metrics(
        first.depths,
        first.errors,
        u8::from(second.is_some()),
        b.depths,
        b.errors,
        bases,
        errors,
        out,
    );
    told(refused, ())
}

/// The duplex record of strands that are given as bytes; `None` where no strand is covered. The reads are a run: of each the
/// byte 0x30, the number of bytes that follow, the flags, two numbers of 16 bits, and its bases.
///
/// # Errors
///
/// [`Refusal::Broken`], [`Refusal::CeilingOutside`], [`Refusal::TooLong`], [`Refusal::OverLimit`], [`Refusal::Ragged`],
/// [`Refusal::TooManyReads`].
///
/// ```
/// use gedrashiw::bytes::{CountBytes, StrandBytes, duplex_consensus};
/// use gedrashiw::methylation::ConversionPattern;
/// use gedrashiw::{Kind, Settings};
///
/// let counts = CountBytes { depths: &[1, 0], errors: &[0, 0] };
/// let evidence = [1, 3, 0, 0, 0, 4, 0, 0, 0];
/// let a = StrandBytes { bases: b"T", quals: &[30], counts, annotation: Some((ConversionPattern::CToT, &evidence)) };
/// let b = StrandBytes { bases: b"C", quals: &[40], annotation: Some((ConversionPattern::GToA, &evidence)), ..a };
/// let sixty = Settings { ceiling: 60, ..Settings::default() };
/// let record = duplex_consensus(sixty, Some(&a), Some(&b), None)?.expect("both are covered");
/// assert_eq!((record.kind, record.bases, record.quals, record.errors), (Kind::Both, b"C".to_vec(), vec![60], vec![0, 0]));
/// assert_eq!((record.first_evidence, record.second_evidence), (Some(evidence.to_vec()), Some(vec![0; 9])));
/// # Ok::<(), gedrashiw::Refusal>(())
/// ```
pub fn duplex_consensus(
    settings: Settings,
    a: Option<&StrandBytes>,
    b: Option<&StrandBytes>,
    reads: Option<&[u8]>,
) -> Result<Option<RecordBytes>, Refusal> {
    made(entries::gedrashiw_duplex_consensus, settings, a, b, reads)
}

/// The same for a live preview: [`duplex_consensus`] at the smaller of the settings' limit and [`PREVIEW_POSITIONS`]. Of strands within
/// these it gives the same, refusals included; no memory is taken for more.
///
/// [`PREVIEW_POSITIONS`]: crate::PREVIEW_POSITIONS
///
/// # Errors
///
/// As [`duplex_consensus`].
///
/// ```
/// use gedrashiw::bytes::{CountBytes, StrandBytes, duplex_consensus, preview_consensus};
/// use gedrashiw::{Refusal, Settings};
///
/// let usual = Settings::default();
/// let counts = CountBytes { depths: &[1; 514], errors: &[0; 514] };
/// let long = StrandBytes { bases: &[b'A'; 257], quals: &[30; 257], counts, annotation: None };
/// assert_eq!(preview_consensus(usual, Some(&long), None, None), Err(Refusal::OverLimit));
/// assert!(duplex_consensus(usual, Some(&long), None, None)?.is_some());
/// let counts = CountBytes { depths: &[1; 512], errors: &[0; 512] };
/// let shown = StrandBytes { bases: &[b'A'; 256], quals: &[30; 256], counts, annotation: None };
/// assert_eq!(preview_consensus(usual, Some(&shown), None, None), duplex_consensus(usual, Some(&shown), None, None));
/// # Ok::<(), gedrashiw::Refusal>(())
/// ```
pub fn preview_consensus(
    settings: Settings,
    a: Option<&StrandBytes>,
    b: Option<&StrandBytes>,
    reads: Option<&[u8]>,
) -> Result<Option<RecordBytes>, Refusal> {
    made(entries::gedrashiw_preview_consensus, settings.previewed(), a, b, reads)
}

/// The record that an entry point makes.
#[inline]
fn made(
    entry: RecordOfBytes,
    settings: Settings,
    a: Option<&StrandBytes>,
    b: Option<&StrandBytes>,
    reads: Option<&[u8]>,
) -> Result<Option<RecordBytes>, Refusal> {
    let given = || [a, b].into_iter().flatten();
    let places = given().map(|s| s.bases.len()).max().unwrap_or(0).min(MAX_POSITIONS).min(usize::from(settings.limit));
    let evidence = if given().any(|s| s.annotation.is_some()) { EVIDENCE_BYTES * places } else { 0 };
    let (mut bases, mut quals, mut errors) = (vec![0; places], vec![0; places], vec![0; 2 * places]);
    let (mut first, mut second) = (vec![0; evidence], vec![0; evidence]);
    let mut out = RecordBytesOut {
        bases: &mut bases,
        quals: &mut quals,
        errors: &mut errors,
        first_evidence: &mut first,
        second_evidence: &mut second,
    };
    let Some(Record { kind, positions }) = made_into(entry, settings, a, b, reads, &mut out)? else {
        return Ok(None);
    };
    let kept = |strand: Option<&StrandBytes>, evidence| {
        strand.and_then(|s| s.annotation).map(|_| cut(evidence, EVIDENCE_BYTES * positions))
    };
    let (ab, ba) = match kind {
        Kind::Ab => (a, None),
        Kind::Ba => (b, None),
        Kind::Both => (a, b),
    };
    Ok(Some(RecordBytes {
        kind,
        bases: cut(bases, positions),
        quals: cut(quals, positions),
        errors: cut(errors, 2 * positions),
        first_evidence: kept(ab, first),
        second_evidence: kept(ba, second),
    }))
}

/// Writes [`duplex_consensus`].
///
/// # Errors
///
/// As [`duplex_consensus`], and [`Refusal::OutputTooShort`].
///
/// ```
/// use gedrashiw::bytes::{CountBytes, RecordBytesOut, StrandBytes, duplex_consensus_into};
/// use gedrashiw::{Kind, Record, Settings};
///
/// let counts = CountBytes { depths: &[1, 0], errors: &[0, 0] };
/// let a = StrandBytes { bases: b"A", quals: &[30], counts, annotation: None };
/// let (mut bases, mut quals, mut errors) = ([0; 1], [0; 1], [0; 2]);
/// let mut out = RecordBytesOut { bases: &mut bases, quals: &mut quals, errors: &mut errors, ..Default::default() };
/// let reads = [0x30, 3, 0, 0x41, 0, b'G'];
/// let record = duplex_consensus_into(Settings::default(), Some(&a), Some(&a), Some(&reads), &mut out)?;
/// assert_eq!(record, Some(Record { kind: Kind::Both, positions: 1 }));
/// assert_eq!((&bases, quals, errors), (b"A", [60], [1, 0]));
/// # Ok::<(), gedrashiw::Refusal>(())
/// ```
pub fn duplex_consensus_into(
    settings: Settings,
    a: Option<&StrandBytes>,
    b: Option<&StrandBytes>,
    reads: Option<&[u8]>,
    out: &mut RecordBytesOut,
) -> Result<Option<Record>, Refusal> {
    made_into(entries::gedrashiw_duplex_consensus, settings, a, b, reads, out)
}

/// Writes [`preview_consensus`]. A record has at most [`PREVIEW_POSITIONS`], and no output needs more places.
///
/// [`PREVIEW_POSITIONS`]: crate::PREVIEW_POSITIONS
///
/// # Errors
///
/// As [`preview_consensus`], and [`Refusal::OutputTooShort`].
///
/// ```
/// use gedrashiw::bytes::{CountBytes, RecordBytesOut, StrandBytes, preview_consensus_into};
/// use gedrashiw::{Kind, Record, Refusal, Settings};
///
/// let (mut bases, mut quals, mut errors) = ([0; 256], [0; 256], [0; 512]);
/// let mut out = RecordBytesOut { bases: &mut bases, quals: &mut quals, errors: &mut errors, ..Default::default() };
/// let mut shown = |positions: usize| {
///     let counts = CountBytes { depths: &[1; 514][..2 * positions], errors: &[0; 514][..2 * positions] };
///     let a = StrandBytes { bases: &[b'A'; 257][..positions], quals: &[30; 257][..positions], counts, annotation: None };
///     preview_consensus_into(Settings::default(), Some(&a), Some(&a), None, &mut out)
/// };
/// assert_eq!(shown(257), Err(Refusal::OverLimit));
/// assert_eq!(shown(256), Ok(Some(Record { kind: Kind::Both, positions: 256 })));
/// assert_eq!((bases, quals), ([b'A'; 256], [60; 256]));
/// ```
pub fn preview_consensus_into(
    settings: Settings,
    a: Option<&StrandBytes>,
    b: Option<&StrandBytes>,
    reads: Option<&[u8]>,
    out: &mut RecordBytesOut,
) -> Result<Option<Record>, Refusal> {
    made_into(entries::gedrashiw_preview_consensus, settings, a, b, reads, out)
}

/// Writes the record that an entry point makes. Inlined: each caller has one entry point.
#[inline(always)]
fn made_into(
    entry: RecordOfBytes,
    settings: Settings,
    a: Option<&StrandBytes>,
    b: Option<&StrandBytes>,
    reads: Option<&[u8]>,
    out: &mut RecordBytesOut,
) -> Result<Option<Record>, Refusal> {
    let (present, listed) = ([a, b].map(|s| u8::from(s.is_some())), u8::from(reads.is_some()));
    let (a, b) = (a.copied().unwrap_or_default(), b.copied().unwrap_or_default());
    let (annotated, pattern, a_evidence) = given(a.annotation);
    let of_a = ToldEncodedStrand { present: present[0], annotated, pattern };
    let (annotated, pattern, b_evidence) = given(b.annotation);
    let of_b = ToldEncodedStrand { present: present[1], annotated, pattern };
    let record = entry(
        ToldEncodedMolecule { a: of_a, b: of_b, listed, settings },
        a.bases,
        a.quals,
        a.counts.depths,
        a.counts.errors,
        a_evidence,
        b.bases,
        b.quals,
        b.counts.depths,
        b.counts.errors,
        b_evidence,
        reads.unwrap_or_default(),
        out.bases,
        out.quals,
        out.errors,
        out.first_evidence,
        out.second_evidence,
    );
    told(record.refused, Record::of(record.kind, record.positions))
}

/// Why the record that [`duplex_consensus_into`] makes of the same strands shows N at a position, counted from 0.
///
/// # Errors
///
/// [`Refusal::Broken`], [`Refusal::TooLong`], [`Refusal::Ragged`].
///
/// ```
/// use gedrashiw::bytes::{CountBytes, StrandBytes, no_call_reason};
/// use gedrashiw::{NoCallReason, Refusal};
///
/// let counts = CountBytes { depths: &[1, 0], errors: &[0, 0] };
/// let a = StrandBytes { bases: b"A", quals: &[32], counts, annotation: None };
/// let b = StrandBytes { bases: b"C", quals: &[30], ..a };
/// assert_eq!(no_call_reason(Some(&a), Some(&b), 0), Ok(NoCallReason::CloseQualities));
/// let cut = StrandBytes { counts: CountBytes { depths: &[1], ..counts }, ..a };
/// assert_eq!(no_call_reason(Some(&a), Some(&cut), 0), Err(Refusal::Broken));
/// ```
pub fn no_call_reason(a: Option<&StrandBytes>, b: Option<&StrandBytes>, position: usize) -> Result<NoCallReason, Refusal> {
    let (a_present, b_present) = (u8::from(a.is_some()), u8::from(b.is_some()));
    let (a, b) = (a.copied().unwrap_or_default(), b.copied().unwrap_or_default());
    let (a_annotated, a_pattern, a_evidence) = given(a.annotation);
    let (b_annotated, b_pattern, b_evidence) = given(b.annotation);
    NoCallReason::of(entries::gedrashiw_no_call_reason(
        a_present,
        a_annotated,
        a_pattern,
        a.bases,
        a.quals,
        a.counts.depths,
        a.counts.errors,
        a_evidence,
        b_present,
        b_annotated,
        b_pattern,
        b.bases,
        b.quals,
        b.counts.depths,
        b.counts.errors,
        b_evidence,
        position,
    ))
}

/// The sequence and the methylation tags of a record, its evidence given as bytes, nine a position, and its counts as bytes.
///
/// # Errors
///
/// [`Refusal::Broken`], [`Refusal::TooLong`], [`Refusal::Ragged`].
///
/// ```
/// use gedrashiw::MethylationMode;
/// use gedrashiw::bytes::methylation_tags;
/// use gedrashiw::methylation::ConversionPattern;
///
/// let evidence = [1, 3, 0, 0, 0, 1, 0, 0, 0];
/// let tags = methylation_tags(b"T", Some((ConversionPattern::CToT, &evidence)), None, MethylationMode::EmSeq)?;
/// assert_eq!((tags.seq, tags.mm_ml), (b"C".to_vec(), Some(("C+m?,0;".to_string(), vec![192]))));
/// assert_eq!((&tags.strands[0].unconverted, tags.unconverted, tags.converted), (&vec![3, 0], vec![3, 0], vec![1, 0]));
/// # Ok::<(), gedrashiw::Refusal>(())
/// ```
pub fn methylation_tags(
    bases: &[u8],
    a: Option<(ConversionPattern, &[u8])>,
    b: Option<(ConversionPattern, &[u8])>,
    methylation_mode: MethylationMode,
) -> Result<DuplexMethylationTags<u8>, Refusal> {
    TagBuffers::of(bases, 2).written(a.is_some(), b.is_some(), |out| methylation_tags_into(bases, a, b, methylation_mode, out))
}

/// Writes [`methylation_tags`]; answers how much of each output is written, the counts in positions.
///
/// # Errors
///
/// [`Refusal::Broken`], [`Refusal::TooLong`], [`Refusal::Ragged`], [`Refusal::OutputTooShort`].
///
/// ```
/// use gedrashiw::MethylationMode;
/// use gedrashiw::bytes::{CountBytesOut, TagBytesOut, methylation_tags_into};
/// use gedrashiw::methylation::ConversionPattern;
///
/// let evidence = [1, 3, 0, 0, 0, 1, 0, 0, 0];
/// let (mut seq, mut a_mm, mut mm, mut ml) = ([0; 1], [0; 10], [0; 20], [0; 2]);
/// let (mut of_a, mut of_both) = (([0; 2], [0; 2]), ([0; 2], [0; 2]));
/// let mut out = TagBytesOut {
///     seq: &mut seq,
///     a_mm: &mut a_mm,
///     mm: &mut mm,
///     ml: &mut ml,
///     a: CountBytesOut { unconverted: &mut of_a.0, converted: &mut of_a.1 },
///     both: CountBytesOut { unconverted: &mut of_both.0, converted: &mut of_both.1 },
///     ..Default::default()
/// };
/// let a = Some((ConversionPattern::CToT, &evidence[..]));
/// let lengths = methylation_tags_into(b"T", a, None, MethylationMode::EmSeq, &mut out)?;
/// assert_eq!((lengths.positions, &seq, &mm[..lengths.mm], ml[0]), (1, b"C", &b"C+m?,0;"[..], 192));
/// assert_eq!((of_a, of_both), (([3, 0], [1, 0]), ([3, 0], [1, 0])));
/// # Ok::<(), gedrashiw::Refusal>(())
/// ```
pub fn methylation_tags_into(
    bases: &[u8],
    a: Option<(ConversionPattern, &[u8])>,
    b: Option<(ConversionPattern, &[u8])>,
    methylation_mode: MethylationMode,
    out: &mut TagBytesOut,
) -> Result<DuplexTagLengths, Refusal> {
    let (a_annotated, a_pattern, a_evidence) = given(a);
    let (b_annotated, b_pattern, b_evidence) = given(b);
    let tags = entries::gedrashiw_methylation_tags(
        bases,
        a_annotated,
        a_pattern,
        a_evidence,
        b_annotated,
        b_pattern,
        b_evidence,
        methylation_mode as u8,
        out.seq,
        out.a_mm,
        out.b_mm,
        out.mm,
        out.ml,
        out.a.unconverted,
        out.a.converted,
        out.b.unconverted,
        out.b.converted,
        out.both.unconverted,
        out.both.converted,
    );
    DuplexTagLengths::of(tags)
}

/// Whether there is an annotation, its pattern as the bytes number it, and its evidence.
fn given(annotation: Option<(ConversionPattern, &[u8])>) -> (u8, u8, &[u8]) {
    match annotation {
        None => (0, 0, &[]),
        Some((ConversionPattern::CToT, evidence)) => (1, 0, evidence),
        Some((ConversionPattern::GToA, evidence)) => (1, 1, evidence),
    }
}
