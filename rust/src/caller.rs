//! What all callers share: the clamps of depths and errors, rates, the read name.
use crate::entries;
use crate::refusal::{Refusal, told};

/// fgbio's greatest depth and error of a position.
pub const FGBIO_SHORT_DEPTH_MAX: u16 = i16::MAX.unsigned_abs();

/// The error rate of a strand: its errors over its depths, both summed uncapped; 0.0 where the depths' sum is 0.
///
/// # Errors
///
/// [`Refusal::TooLong`], [`Refusal::Ragged`].
///
/// ```
/// use gedrashiw::calculate_error_rate;
///
/// assert_eq!(calculate_error_rate(&[4, 4], &[1, 0])?, 0.125);
/// assert_eq!(calculate_error_rate(&[0], &[3])?, 0.0);
/// # Ok::<(), gedrashiw::Refusal>(())
/// ```
#[inline]
pub fn calculate_error_rate(depths: &[u16], errors: &[u16]) -> Result<f32, Refusal> {
    let rate = entries::gedrashiw_calculate_error_rate(depths, errors);
    told(rate.refused, f32::from_bits(rate.number))
}

/// The bits of the rate of two sums: both as 32-bit floats, nearest, ties to even, divided; 0 where the depths' sum is 0.
///
/// ```
/// assert_eq!(gedrashiw::caller::rate_bits(2, 12), 0x3e2a_aaab);
/// ```
#[must_use]
pub fn rate_bits(errors: u32, depth: u32) -> u32 {
    entries::gedrashiw_rate_bits(errors, depth)
}

/// A depth of a position held to [`FGBIO_SHORT_DEPTH_MAX`].
///
/// ```
/// assert_eq!(gedrashiw::caller::clamp_per_base_to_fgbio_short(40_000), 32_767);
/// ```
#[must_use]
#[inline]
pub fn clamp_per_base_to_fgbio_short(depth: u16) -> i32 {
    entries::gedrashiw_clamp_per_base_to_fgbio_short(depth) as i32
}

/// The errors of a position of two strands held to 0..=[`FGBIO_SHORT_DEPTH_MAX`].
///
/// ```
/// use gedrashiw::caller::clamp_combined_error_to_fgbio_short;
///
/// assert_eq!([-2, 7, 40_000].map(clamp_combined_error_to_fgbio_short), [0, 7, 32_767]);
/// ```
#[must_use]
#[inline]
pub fn clamp_combined_error_to_fgbio_short(error_sum: i32) -> u16 {
    entries::gedrashiw_clamp_combined_error_to_fgbio_short(error_sum)
}

/// Puts the name of a consensus read in a buffer, in place of what it held: the prefix, a colon and the UMI.
///
/// ```
/// let mut name = Vec::new();
/// gedrashiw::caller::write_consensus_read_name(&mut name, "fgumi", "7");
/// assert_eq!(name, b"fgumi:7");
/// ```
pub fn write_consensus_read_name(buf: &mut Vec<u8>, read_name_prefix: impl AsRef<[u8]>, umi: impl AsRef<[u8]>) {
    let (prefix, umi) = (read_name_prefix.as_ref(), umi.as_ref());
    buf.clear();
    buf.resize(prefix.len() + 1 + umi.len(), 0);
    write_consensus_read_name_into(buf, prefix, umi).expect("the buffer has room for the name");
}

/// Writes the name of a consensus read to the front of an output; answers its length.
///
/// # Errors
///
/// [`Refusal::OutputTooShort`].
///
/// ```
/// use gedrashiw::{Refusal, caller::write_consensus_read_name_into};
///
/// let mut out = *b"..........";
/// assert_eq!(write_consensus_read_name_into(&mut out, b"fgumi", b"7"), Ok(7));
/// assert_eq!(&out, b"fgumi:7...");
/// assert_eq!(write_consensus_read_name_into(&mut out, b"fgumi", b"12345"), Err(Refusal::OutputTooShort));
/// ```
pub fn write_consensus_read_name_into(out: &mut [u8], read_name_prefix: &[u8], umi: &[u8]) -> Result<usize, Refusal> {
    let name = entries::gedrashiw_write_consensus_read_name(out, read_name_prefix, umi);
    told(name.refused, name.count)
}
