//! The consensus of one strand, and source reads.
use crate::MAX_POSITIONS;
use crate::caller::calculate_error_rate;
use crate::entries::{self, Places};
use crate::methylation::{ConversionPattern, EvidenceArrays, EvidenceOut, Given, MethylationAnnotation};
use crate::refusal::{Refusal, told};
use std::borrow::Cow;

/// A source read: its SAM flags, and where its bases are among the bytes of its list. It may have any number of bases.
#[derive(Clone, Copy, Debug, PartialEq, Eq, Hash)]
#[repr(C)]
pub struct SourceRead {
    /// Its SAM flags.
    pub flags: u16,
    /// Where its bases begin.
    pub offset: usize,
    /// How many bases it has.
    pub length: usize,
}

/// A list of source reads, whose bases are parts of one buffer.
#[derive(Clone, Copy, Debug, Default, PartialEq, Eq)]
pub struct SourceReads<'a> {
    /// The reads.
    pub reads: &'a [SourceRead],
    /// What their parts are of.
    pub bytes: &'a [u8],
}

/// Source reads that are put in one buffer one by one.
///
/// ```
/// use gedrashiw::SourceReadBuffer;
///
/// let mut reads = SourceReadBuffer::default();
/// reads.push(0x41, b"ACG");
/// reads.push(0x81, b"AC");
/// assert_eq!((reads.list().reads.len(), reads.list().bytes), (2, &b"ACGAC"[..]));
/// reads.clear();
/// assert!(reads.list().reads.is_empty());
/// ```
#[derive(Clone, Debug, Default, PartialEq, Eq)]
pub struct SourceReadBuffer {
    reads: Vec<SourceRead>,
    bytes: Vec<u8>,
}

impl SourceReadBuffer {
    /// Adds a read.
    pub fn push(&mut self, flags: u16, bases: &[u8]) {
        self.reads.push(SourceRead { flags, offset: self.bytes.len(), length: bases.len() });
        self.bytes.extend_from_slice(bases);
    }

    /// The reads as a list.
    #[must_use]
    pub fn list(&self) -> SourceReads<'_> {
        SourceReads { reads: &self.reads, bytes: &self.bytes }
    }

    /// Removes all reads, and keeps the room.
    pub fn clear(&mut self) {
        self.reads.clear();
        self.bytes.clear();
    }
}

/// The consensus of one strand. All its arrays have one length; they are lent by the caller or its own.
///
/// ```
/// use gedrashiw::VanillaConsensusRead;
///
/// let strand = VanillaConsensusRead::new(b"ACG", &[30; 3], &[4, 5, 6], &[0, 3, 0]);
/// assert_eq!(strand.len(), 3);
/// assert!(!strand.is_empty());
/// ```
#[derive(Clone, Debug, Default, PartialEq, Eq)]
pub struct VanillaConsensusRead<'a> {
    /// Its bases.
    pub bases: Cow<'a, [u8]>,
    /// Their qualities.
    pub quals: Cow<'a, [u8]>,
    /// How many reads each position has.
    pub depths: Cow<'a, [u16]>,
    /// How many of these differ there.
    pub errors: Cow<'a, [u16]>,
    /// Its annotation, if it has one.
    pub methylation: Option<MethylationAnnotation<'a>>,
}

/// Where a strand goes: an output for each of its arrays.
#[derive(Debug, Default)]
pub struct StrandOut<'a> {
    /// Bases.
    pub bases: &'a mut [u8],
    /// Qualities.
    pub quals: &'a mut [u8],
    /// Depths.
    pub depths: &'a mut [u16],
    /// Errors.
    pub errors: &'a mut [u16],
    /// The annotation's evidence; nothing goes there without one.
    pub evidence: EvidenceOut<'a>,
}

impl<'a> VanillaConsensusRead<'a> {
    /// A strand without an annotation, of arrays that the caller lends.
    #[must_use]
    pub const fn new(bases: &'a [u8], quals: &'a [u8], depths: &'a [u16], errors: &'a [u16]) -> Self {
        Self {
            bases: Cow::Borrowed(bases),
            quals: Cow::Borrowed(quals),
            depths: Cow::Borrowed(depths),
            errors: Cow::Borrowed(errors),
            methylation: None,
        }
    }

    /// The same strand with an annotation.
    ///
    /// ```
    /// use gedrashiw::VanillaConsensusRead;
    /// use gedrashiw::methylation::{ConversionPattern, EvidenceArrays};
    ///
    /// let evidence = EvidenceArrays::new(&[1], &[3], &[1]);
    /// let strand = VanillaConsensusRead::new(b"C", &[30], &[4], &[0]).annotated(ConversionPattern::CToT, evidence);
    /// assert!(strand.methylation.is_some());
    /// ```
    #[must_use]
    pub fn annotated(self, pattern: ConversionPattern, evidence: EvidenceArrays<'a>) -> Self {
        Self { methylation: Some(MethylationAnnotation { evidence, pattern }), ..self }
    }

    /// How many positions it has.
    #[must_use]
    pub fn len(&self) -> usize {
        self.bases.len()
    }

    /// Whether it has none.
    #[must_use]
    pub fn is_empty(&self) -> bool {
        self.bases.is_empty()
    }

    /// Its largest depth, 0 over no positions.
    ///
    /// # Errors
    ///
    /// [`Refusal::TooLong`].
    ///
    /// ```
    /// # use gedrashiw::VanillaConsensusRead;
    /// let strand = VanillaConsensusRead::new(b"ACG", &[30; 3], &[5, 40_000, 3], &[0; 3]);
    /// assert_eq!(strand.max_depth(), Ok(40_000));
    /// ```
    #[inline]
    pub fn max_depth(&self) -> Result<u16, Refusal> {
        let depth = entries::gedrashiw_max_depth(&self.depths);
        told(depth.refused, depth.number as u16)
    }

    /// Its smallest depth, 0 over no positions.
    ///
    /// # Errors
    ///
    /// [`Refusal::TooLong`].
    ///
    /// ```
    /// # use gedrashiw::VanillaConsensusRead;
    /// let strand = VanillaConsensusRead::new(b"ACG", &[30; 3], &[5, 40_000, 3], &[0; 3]);
    /// assert_eq!(strand.min_depth(), Ok(3));
    /// ```
    #[inline]
    pub fn min_depth(&self) -> Result<u16, Refusal> {
        let depth = entries::gedrashiw_min_depth(&self.depths);
        told(depth.refused, depth.number as u16)
    }

    /// Its errors over its depths ([`calculate_error_rate`]).
    ///
    /// # Errors
    ///
    /// [`Refusal::TooLong`], [`Refusal::Ragged`].
    ///
    /// ```
    /// # use gedrashiw::VanillaConsensusRead;
    /// assert_eq!(VanillaConsensusRead::new(b"AC", &[30; 2], &[4, 4], &[1, 0]).error_rate(), Ok(0.125));
    /// ```
    #[inline]
    pub fn error_rate(&self) -> Result<f32, Refusal> {
        calculate_error_rate(&self.depths, &self.errors)
    }

    /// The strand padded to a length, on the left or on the right, with a base, a quality, depth 0 and error 0. To the same length
    /// it is a copy; to more its annotation is dropped.
    ///
    /// # Errors
    ///
    /// [`Refusal::TooLong`], [`Refusal::Ragged`], [`Refusal::BelowLength`].
    ///
    /// ```
    /// # use gedrashiw::{Refusal, VanillaConsensusRead};
    /// let strand = VanillaConsensusRead::new(b"ACG", &[30; 3], &[4, 5, 6], &[0, 3, 0]);
    /// let padded = strand.padded(5, true, b'N', 2)?;
    /// assert_eq!(padded, VanillaConsensusRead::new(b"NNACG", &[2, 2, 30, 30, 30], &[0, 0, 4, 5, 6], &[0, 0, 0, 3, 0]));
    /// assert_eq!(strand.padded(2, true, b'N', 2), Err(Refusal::BelowLength));
    /// # Ok::<(), gedrashiw::Refusal>(())
    /// ```
    #[inline]
    pub fn padded(&self, new_length: usize, left: bool, base: u8, qual: u8) -> Result<VanillaConsensusRead<'static>, Refusal> {
        self.owned(new_length, |places| self.pad(new_length, left, base, qual, places))
    }

    /// [`Self::padded`] with the base n and quality 2.
    ///
    /// # Errors
    ///
    /// [`Refusal::TooLong`], [`Refusal::Ragged`], [`Refusal::BelowLength`].
    ///
    /// ```
    /// # use gedrashiw::VanillaConsensusRead;
    /// let strand = VanillaConsensusRead::new(b"ACG", &[30; 3], &[4, 5, 6], &[0, 3, 0]);
    /// assert_eq!(strand.padded_default(4, false)?.bases, &b"ACGn"[..]);
    /// # Ok::<(), gedrashiw::Refusal>(())
    /// ```
    #[inline]
    pub fn padded_default(&self, new_length: usize, left: bool) -> Result<VanillaConsensusRead<'static>, Refusal> {
        self.owned(new_length, |places| self.pad_default(new_length, left, places))
    }

    /// Writes [`Self::padded`] to `new_length` places; answers the pattern of the annotation that it keeps.
    ///
    /// # Errors
    ///
    /// [`Refusal::TooLong`], [`Refusal::Ragged`], [`Refusal::BelowLength`], [`Refusal::OutputTooShort`].
    ///
    /// ```
    /// # use gedrashiw::VanillaConsensusRead;
    /// use gedrashiw::StrandOut;
    ///
    /// let strand = VanillaConsensusRead::new(b"ACG", &[30; 3], &[4, 5, 6], &[0, 3, 0]);
    /// let (mut bases, mut quals, mut depths, mut errors) = ([b'.'; 6], [9; 6], [9; 6], [9; 6]);
    /// let mut out = StrandOut {
    ///     bases: &mut bases,
    ///     quals: &mut quals,
    ///     depths: &mut depths,
    ///     errors: &mut errors,
    ///     ..Default::default()
    /// };
    /// assert_eq!(strand.padded_into(5, false, b'N', 2, &mut out), Ok(None));
    /// assert_eq!((&bases, quals), (b"ACGNN.", [30, 30, 30, 2, 2, 9]));
    /// ```
    #[inline]
    pub fn padded_into(
        &self,
        new_length: usize,
        left: bool,
        base: u8,
        qual: u8,
        out: &mut StrandOut,
    ) -> Result<Option<ConversionPattern>, Refusal> {
        self.pad(new_length, left, base, qual, out.places())
    }

    /// Writes [`Self::padded_default`] to `new_length` places; answers the pattern of the annotation that it keeps.
    ///
    /// # Errors
    ///
    /// [`Refusal::TooLong`], [`Refusal::Ragged`], [`Refusal::BelowLength`], [`Refusal::OutputTooShort`].
    ///
    /// ```
    /// # use gedrashiw::VanillaConsensusRead;
    /// use gedrashiw::{Refusal, StrandOut};
    ///
    /// let strand = VanillaConsensusRead::new(b"ACG", &[30; 3], &[4, 5, 6], &[0, 3, 0]);
    /// assert_eq!(strand.padded_default_into(5, true, &mut StrandOut::default()), Err(Refusal::OutputTooShort));
    /// ```
    #[inline]
    pub fn padded_default_into(
        &self,
        new_length: usize,
        left: bool,
        out: &mut StrandOut,
    ) -> Result<Option<ConversionPattern>, Refusal> {
        self.pad_default(new_length, left, out.places())
    }
}

/// Where an entry point writes a strand.
struct StrandPlaces<'a> {
    bases: Places<'a, u8>,
    quals: Places<'a, u8>,
    depths: Places<'a, u16>,
    errors: Places<'a, u16>,
    marks: Places<'a, u8>,
    unconverted: Places<'a, u32>,
    converted: Places<'a, u32>,
}

impl StrandOut<'_> {
    fn places(&mut self) -> StrandPlaces<'_> {
        StrandPlaces {
            bases: Places::of(self.bases),
            quals: Places::of(self.quals),
            depths: Places::of(self.depths),
            errors: Places::of(self.errors),
            marks: Places::of(self.evidence.informative),
            unconverted: Places::of(self.evidence.unconverted_count),
            converted: Places::of(self.evidence.converted_count),
        }
    }
}

impl VanillaConsensusRead<'_> {
    #[inline]
    fn pad(
        &self,
        new_length: usize,
        left: bool,
        base: u8,
        qual: u8,
        places: StrandPlaces,
    ) -> Result<Option<ConversionPattern>, Refusal> {
        let given = Given::of(self.methylation.as_ref());
        let padded = entries::gedrashiw_padded(
            &self.bases,
            &self.quals,
            &self.depths,
            &self.errors,
            given.annotation,
            given.marks,
            given.unconverted,
            given.converted,
            new_length,
            u8::from(left),
            base,
            qual,
            places.bases,
            places.quals,
            places.depths,
            places.errors,
            places.marks,
            places.unconverted,
            places.converted,
        );
        told(padded.refused, ConversionPattern::of_number(padded.number as u8))
    }

    #[inline]
    fn pad_default(&self, new_length: usize, left: bool, places: StrandPlaces) -> Result<Option<ConversionPattern>, Refusal> {
        let given = Given::of(self.methylation.as_ref());
        let padded = entries::gedrashiw_padded_default(
            &self.bases,
            &self.quals,
            &self.depths,
            &self.errors,
            given.annotation,
            given.marks,
            given.unconverted,
            given.converted,
            new_length,
            u8::from(left),
            places.bases,
            places.quals,
            places.depths,
            places.errors,
            places.marks,
            places.unconverted,
            places.converted,
        );
        told(padded.refused, ConversionPattern::of_number(padded.number as u8))
    }

    /// This strand at another length, as a call writes it; its annotation is of the pattern that the call answers. The vectors have room,
    /// and values only once the call has written them. Evidence is written only where the length is its own: otherwise it needs no places.
    fn owned(
        &self,
        new_length: usize,
        write: impl FnOnce(StrandPlaces) -> Result<Option<ConversionPattern>, Refusal>,
    ) -> Result<VanillaConsensusRead<'static>, Refusal> {
        let n = new_length.min(MAX_POSITIONS);
        let with_evidence = if self.methylation.is_some() && self.len() == new_length { n } else { 0 };
        let (mut bases, mut quals) = (Vec::with_capacity(n), Vec::with_capacity(n));
        let (mut depths, mut errors) = (Vec::with_capacity(n), Vec::with_capacity(n));
        let mut marks = Vec::with_capacity(with_evidence);
        let (mut unconverted, mut converted) = (Vec::with_capacity(with_evidence), Vec::with_capacity(with_evidence));
        let pattern = write(StrandPlaces {
            bases: Places::room(&mut bases),
            quals: Places::room(&mut quals),
            depths: Places::room(&mut depths),
            errors: Places::room(&mut errors),
            marks: Places::room(&mut marks),
            unconverted: Places::room(&mut unconverted),
            converted: Places::room(&mut converted),
        })?;
        // SAFETY: the call was accepted, so `new_length` is at most MAX_POSITIONS, and n. The contract of the entry point says that an
        // accepted call has written a strand of so many positions to the front of the four outputs, and to those of the evidence
        // where it answers a pattern; each vector has room for as many.
        unsafe {
            bases.set_len(n);
            quals.set_len(n);
            depths.set_len(n);
            errors.set_len(n);
            if pattern.is_some() {
                marks.set_len(with_evidence);
                unconverted.set_len(with_evidence);
                converted.set_len(with_evidence);
            }
        }
        let evidence = EvidenceArrays {
            informative: marks.into(),
            unconverted_count: unconverted.into(),
            converted_count: converted.into(),
        };
        Ok(VanillaConsensusRead {
            bases: bases.into(),
            quals: quals.into(),
            depths: depths.into(),
            errors: errors.into(),
            methylation: pattern.map(|pattern| MethylationAnnotation { evidence, pattern }),
        })
    }
}
