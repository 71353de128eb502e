//! Qualities.
use crate::entries;
use crate::refusal::{Refusal, told};

/// The least quality.
pub const MIN_PHRED: u8 = 2;

/// The greatest quality, and the highest ceiling of a lab.
pub const MAX_PHRED: u8 = 93;

/// The lowest ceiling of a lab.
pub const MIN_CEILING: u8 = 3;

/// A quality held to [`MIN_PHRED`] and a ceiling, which is from [`MIN_CEILING`] to [`MAX_PHRED`].
///
/// # Errors
///
/// [`Refusal::CeilingOutside`].
///
/// ```
/// use gedrashiw::Refusal;
/// use gedrashiw::phred::cap_quality;
///
/// assert_eq!([0, 2, 93, 120].map(|score| cap_quality(score, 93)), [Ok(2), Ok(2), Ok(93), Ok(93)]);
/// assert_eq!([2, 59, 61].map(|score| cap_quality(score, 60)), [Ok(2), Ok(59), Ok(60)]);
/// assert_eq!([2, 94].map(|ceiling| cap_quality(30, ceiling)), [Err(Refusal::CeilingOutside); 2]);
/// ```
#[inline]
pub fn cap_quality(score: u16, ceiling: u8) -> Result<u8, Refusal> {
    let capped = entries::gedrashiw_cap_quality(score, ceiling);
    told(capped.refused, capped.number as u8)
}
