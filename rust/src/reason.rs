//! Why a position of a record shows N.
use crate::entries;
use crate::refusal::{Refusal, told};
use std::fmt;

/// What is said of a position of a duplex record: why it shows N, or that it does not, or that no two strands decide there. Its text is a
/// sentence to be read under a base.
///
/// A position of two strands shows N exactly where one of the seven reasons is answered ([`Self::is_no_call`]), and any other base
/// exactly where it is [`Self::Called`]. Of the seven, the first that holds in this order is answered. N is the byte N alone, n is not.
///
/// ```
/// use gedrashiw::{DuplexConsensusCaller, NoCallReason, VanillaConsensusRead};
///
/// let a = VanillaConsensusRead::new(b"ACGT", &[30; 4], &[2; 4], &[0; 4]);
/// let b = VanillaConsensusRead::new(b"ACTN", &[20, 40, 30, 2], &[1; 4], &[0; 4]);
/// let reason = DuplexConsensusCaller::no_call_reason(Some(&a), Some(&b), 3)?;
/// assert_eq!(reason, NoCallReason::BNoCall);
/// assert_eq!(reason.number(), 5);
/// assert_eq!(reason.to_string(), "Strand B shows N here; strand A shows a base.");
/// # Ok::<(), gedrashiw::Refusal>(())
/// ```
#[derive(Clone, Copy, Debug, PartialEq, Eq, Hash)]
#[repr(u8)]
pub enum NoCallReason {
    /// The position lies past the record, or there is no record.
    Outside = 1,
    /// The record is of one strand, whose base it shows, N or not.
    SingleStrand = 2,
    /// The position shows a base.
    Called = 3,
    /// A alone is N.
    ANoCall = 4,
    /// B alone is N.
    BNoCall = 5,
    /// Both are N.
    BothNoCall = 6,
    /// Without a methylation call the bases differ, at equal qualities.
    EqualQualities = 7,
    /// Without a methylation call the bases differ, at qualities that differ by 1 or 2.
    CloseQualities = 8,
    /// The sum of the qualities counts, at equal bases or at a methylation call, and is at most 2.
    LowSum = 9,
    /// At a methylation call the confirming strand's quality counts alone, since the informative strand shows the converted base and
    /// is not marked there; it is at most 2.
    LowConfirming = 10,
}

impl NoCallReason {
    /// Every case, by number.
    pub const ALL: [NoCallReason; 10] = [
        NoCallReason::Outside,
        NoCallReason::SingleStrand,
        NoCallReason::Called,
        NoCallReason::ANoCall,
        NoCallReason::BNoCall,
        NoCallReason::BothNoCall,
        NoCallReason::EqualQualities,
        NoCallReason::CloseQualities,
        NoCallReason::LowSum,
        NoCallReason::LowConfirming,
    ];

    /// Its number, as C programs have it.
    ///
    /// ```
    /// assert_eq!(gedrashiw::NoCallReason::LowConfirming.number(), 10);
    /// ```
    #[must_use]
    pub const fn number(self) -> u8 {
        self as u8
    }

    /// Whether it is one of the seven reasons for an N of two strands.
    ///
    /// ```
    /// use gedrashiw::NoCallReason;
    ///
    /// assert!(NoCallReason::EqualQualities.is_no_call());
    /// assert!(!NoCallReason::SingleStrand.is_no_call());
    /// ```
    #[must_use]
    pub const fn is_no_call(self) -> bool {
        !matches!(self, NoCallReason::Outside | NoCallReason::SingleStrand | NoCallReason::Called)
    }

    const fn sentence(self) -> &'static str {
        match self {
            NoCallReason::Outside => "No record reaches this position.",
            NoCallReason::SingleStrand => "The record is of one strand alone, and shows that strand's base as it is.",
            NoCallReason::Called => "A base is called here.",
            NoCallReason::ANoCall => "Strand A shows N here; strand B shows a base.",
            NoCallReason::BNoCall => "Strand B shows N here; strand A shows a base.",
            NoCallReason::BothNoCall => "Both strands show N here.",
            NoCallReason::EqualQualities => "The strands show different bases at equal qualities, so neither wins.",
            NoCallReason::CloseQualities => "The strands show different bases, and their qualities differ by only 1 or 2.",
            NoCallReason::LowSum => "The qualities of the two strands count together here, and add up to no more than 2.",
            NoCallReason::LowConfirming => {
                "Only the quality of the strand that confirms the methylation call counts here, and it is no more than 2."
            }
        }
    }

    /// What an entry point answered.
    pub(crate) fn of(reply: entries::Reason) -> Result<NoCallReason, Refusal> {
        told(reply.refused, ()).map(|()| Self::ALL[usize::from(reply.reason) - 1])
    }
}

impl fmt::Display for NoCallReason {
    fn fmt(&self, f: &mut fmt::Formatter) -> fmt::Result {
        f.write_str(self.sentence())
    }
}
