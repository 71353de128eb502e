//! What a lab chooses.
use crate::phred::MAX_PHRED;
use crate::{MAX_POSITIONS, PREVIEW_POSITIONS};

/// What a lab chooses of the combination: the calls that combine two strands take it first. The default is what fgumi-consensus does, with
/// the positions that the batch product takes.
///
/// ```
/// use gedrashiw::{DuplexConsensusCaller, Refusal, Settings, VanillaConsensusRead};
///
/// let a = VanillaConsensusRead::new(b"AC", &[50; 2], &[2; 2], &[0; 2]);
/// let quals = |settings, b| {
///     DuplexConsensusCaller::duplex_consensus(settings, Some(&a), b, None).map(|record| record.expect("it is covered").quals)
/// };
/// let usual = Settings::default();
/// assert_eq!(quals(usual, Some(&a)), Ok(vec![93; 2]));
/// assert_eq!(quals(Settings { ceiling: 60, ..usual }, Some(&a)), Ok(vec![60; 2]));
/// // A record of one strand keeps its qualities.
/// assert_eq!(quals(Settings { ceiling: 40, ..usual }, None), Ok(vec![50; 2]));
/// assert_eq!(quals(Settings { ceiling: 94, ..usual }, None), Err(Refusal::CeilingOutside));
/// assert_eq!(quals(Settings { limit: 2, ..usual }, Some(&a)), Ok(vec![93; 2]));
/// assert_eq!(quals(Settings { limit: 1, ..usual }, Some(&a)), Err(Refusal::OverLimit));
/// ```
#[derive(Clone, Copy, Debug, PartialEq, Eq, Hash)]
#[repr(C)]
pub struct Settings {
    /// The highest quality of a record of two strands, from 3 to 93.
    pub ceiling: u8,
    /// The most positions of a strand: an array of more, as far as it is looked at, is refused by [`Refusal::OverLimit`], and one of over
    /// [`MAX_POSITIONS`] by [`Refusal::TooLong`] whatever the limit. Nothing else depends on it.
    ///
    /// [`Refusal::OverLimit`]: crate::Refusal::OverLimit
    /// [`Refusal::TooLong`]: crate::Refusal::TooLong
    pub limit: u16,
}

impl Settings {
    /// The same with no more positions than a preview shows.
    pub(crate) fn previewed(self) -> Settings {
        Settings { limit: self.limit.min(PREVIEW_POSITIONS as u16), ..self }
    }
}

impl Default for Settings {
    /// The ceiling 93, and 1,024 positions.
    fn default() -> Settings {
        Settings { ceiling: MAX_PHRED, limit: MAX_POSITIONS as u16 }
    }
}
