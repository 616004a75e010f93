//! The line filter.

use crate::refused::{Refused, accepted};
use crate::{Strength, c};

/// Filters one line across an edge in place: p7 to p0 before the edge, q0 to q7 behind it, each below 2 to `bit_depth`.
/// `bit_depth` is 8, 10 or 12; `filter_size` is 0 for 4 samples, 1 for 6 or 2 for 14. Refused with 2, 13 (its place is
/// the tap, 0 for p7) or 15.
#[inline]
pub fn line(
    taps: &mut [u16; 16],
    bit_depth: u8,
    filter_size: u8,
    strength: Strength,
) -> Result<(), Refused> {
    let Strength { limit, blimit, thresh } = strength;
    accepted(c::springspade_line(taps, bit_depth, filter_size, limit, blimit, thresh))
}

/// [`line`](fn@line) over the first 16 of these bytes; those behind them are left. `bit_depth` is 8. Refused with 2,
/// 7 (fewer than 16 bytes) or 15.
///
/// ```
/// let mut taps = [100, 100, 100, 100, 100, 100, 100, 100, 104, 104, 104, 104, 104, 104, 104, 104];
/// springspade::line_bytes(&mut taps, 8, 1, springspade::strength(32, 0)?)?;
/// assert_eq!(taps[5..11], [101, 101, 102, 103, 103, 104]);
/// # Ok::<(), springspade::Refused>(())
/// ```
#[inline]
pub fn line_bytes(
    taps: &mut [u8],
    bit_depth: u8,
    filter_size: u8,
    strength: Strength,
) -> Result<(), Refused> {
    let Strength { limit, blimit, thresh } = strength;
    // SAFETY: the pointer goes with the length of its own slice.
    accepted(unsafe {
        c::springspade_line_bytes(
            taps.as_mut_ptr(),
            taps.len(),
            bit_depth,
            filter_size,
            limit,
            blimit,
            thresh,
        )
    })
}
