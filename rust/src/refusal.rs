//! What refuses a call.
use std::fmt;

/// A row of the refusal table of documents 01 and 02: why a call was refused. A refused call has written nothing.
///
/// ```
/// use gedrashiw::{DuplexConsensusCaller, Refusal};
///
/// let refusal = DuplexConsensusCaller::validate_min_reads(&[1, 2]).unwrap_err();
/// assert_eq!(refusal, Refusal::XyAboveTotal);
/// assert_eq!(refusal.number(), 3);
/// assert_eq!(refusal.to_string(), "second threshold above first");
/// ```
#[derive(Clone, Copy, Debug, PartialEq, Eq, Hash)]
#[repr(u8)]
pub enum Refusal {
    /// No thresholds.
    NoThresholds = 1,
    /// More than 3 thresholds.
    TooManyThresholds = 2,
    /// Second threshold above first.
    XyAboveTotal = 3,
    /// Third threshold above second.
    YxAboveXy = 4,
    /// A read has no MI.
    NoMi = 5,
    /// MI not ending /A or /B.
    NoStrand = 6,
    /// Any array of a strand or record, a sequence, or a length to pad to, over 1,024 positions.
    TooLong = 7,
    /// Arrays of one strand or of one record, or evidence and bases, differ in length.
    Ragged = 8,
    /// Over 1,024 reads in one list.
    TooManyReads = 9,
    /// A read's part leaves its byte buffer.
    PartOutside = 10,
    /// Padding below the present length.
    BelowLength = 11,
    /// A lent output is shorter than what goes there.
    OutputTooShort = 12,
    /// Of bytes alone: they do not read as what they stand for. The calls on numbers have no such answer here.
    Broken = 13,
    /// A quality ceiling outside 3 to 93.
    CeilingOutside = 14,
    /// Up to 1,024 positions of every array of a strand, and over the limit that a lab chose.
    OverLimit = 19,
}

impl Refusal {
    /// Every row, by number.
    pub const ALL: [Refusal; 15] = [
        Refusal::NoThresholds,
        Refusal::TooManyThresholds,
        Refusal::XyAboveTotal,
        Refusal::YxAboveXy,
        Refusal::NoMi,
        Refusal::NoStrand,
        Refusal::TooLong,
        Refusal::Ragged,
        Refusal::TooManyReads,
        Refusal::PartOutside,
        Refusal::BelowLength,
        Refusal::OutputTooShort,
        Refusal::Broken,
        Refusal::CeilingOutside,
        Refusal::OverLimit,
    ];

    /// Its number in the table.
    ///
    /// ```
    /// assert_eq!(gedrashiw::Refusal::TooLong.number(), 7);
    /// ```
    #[must_use]
    pub const fn number(self) -> u8 {
        self as u8
    }

    /// Its row's condition.
    const fn condition(self) -> &'static str {
        match self {
            Refusal::NoThresholds => "no thresholds",
            Refusal::TooManyThresholds => "more than 3 thresholds",
            Refusal::XyAboveTotal => "second threshold above first",
            Refusal::YxAboveXy => "third threshold above second",
            Refusal::NoMi => "a read has no MI",
            Refusal::NoStrand => "MI not ending /A or /B",
            Refusal::TooLong => "any array of a strand or record, a sequence, or a length to pad to, over 1,024 positions",
            Refusal::Ragged => "arrays of one strand or of one record, or evidence and bases, differ in length",
            Refusal::TooManyReads => "over 1,024 reads in one list",
            Refusal::PartOutside => "a read's part leaves its byte buffer",
            Refusal::BelowLength => "padding below the present length",
            Refusal::OutputTooShort => "a lent output is shorter than what goes there",
            Refusal::Broken => "a broken run, a byte count that does not fit the widths or a pattern above 1",
            Refusal::CeilingOutside => "quality ceiling outside 3 to 93",
            Refusal::OverLimit => "a strand over the limit of positions that the lab chose",
        }
    }

    /// The row of a number. Not every number below the last is one of a row.
    #[cold]
    fn of(number: u8) -> Refusal {
        Refusal::ALL.into_iter().find(|row| row.number() == number).expect("a row of the table")
    }
}

impl fmt::Display for Refusal {
    fn fmt(&self, f: &mut fmt::Formatter) -> fmt::Result {
        f.write_str(self.condition())
    }
}

impl std::error::Error for Refusal {}

/// The value of a call, unless it answered a refusal's number.
#[inline]
pub(crate) fn told<T>(refused: u8, value: T) -> Result<T, Refusal> {
    match refused {
        0 => Ok(value),
        number => Err(Refusal::of(number)),
    }
}
