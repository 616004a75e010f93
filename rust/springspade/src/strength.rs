//! The strength of a level, and the mode type that a level is read by.

use crate::c::{self, Refusal};
use crate::refused::{Refused, accepted};

/// What the line filter takes for a level and sharpness, at 8 bits: it scales them for 10 and 12. Any bytes are taken.
#[derive(Debug, Clone, Copy, PartialEq, Eq)]
pub struct Strength {
    /// How much neighbours on one side may differ.
    pub limit: u8,
    /// How much the two sides may differ.
    pub blimit: u8,
    /// How much neighbours differ before only two samples are changed.
    pub thresh: u8,
}

/// The strength of a level, 0 to 63, at a sharpness, 0 to 7. Refused with 1 or 6.
#[inline]
pub fn strength(level: u8, sharpness: u8) -> Result<Strength, Refused> {
    let s = c::springspade_strength(level, sharpness);
    accepted(Refusal { number: s.number, place: s.place })?;
    Ok(Strength { limit: s.limit, blimit: s.blimit, thresh: s.thresh })
}

/// The mode type of a block's mode: 1 for NEARESTMV (10), NEARMV (11) and NEWMV (13), else 0.
#[must_use]
#[inline]
pub fn mode_type(y_mode: u8) -> usize {
    c::springspade_mode_type(y_mode)
}
