//! The level table of a frame.

use crate::c;
use crate::refused::{Refused, accepted};

/// The loop filter settings of a frame's header. By default there are no deltas, and level 0.
#[derive(Debug, Clone, Copy, PartialEq, Eq, Default)]
pub struct LoopFilter {
    /// The frame's level, 0 to 63. 0 turns the filter off: that is the caller's matter, see `examples/frame.rs`.
    pub level: u8,
    /// loop_filter_delta_enabled.
    pub delta_enabled: bool,
    /// loop_filter_delta_update, which no header has without loop_filter_delta_enabled.
    pub delta_update: bool,
    /// By reference: intra, last, golden, altref. None is absent from the header and counts as 1, 0, -1, -1.
    pub ref_deltas: [Option<i8>; 4],
    /// By mode type, see [`mode_type`](crate::mode_type). None is absent from the header and counts as 0.
    pub mode_deltas: [Option<i8>; 2],
}

/// The segmentation settings of a frame's header. By default there are no segments.
#[derive(Debug, Clone, Copy, PartialEq, Eq, Default)]
pub struct Segmentation {
    /// segmentation_enabled.
    pub enabled: bool,
    /// segmentation_abs_or_delta_update: whether a datum is the segment's level, or is added to the frame's.
    pub abs_or_delta_update: bool,
    /// By segment and feature. Feature 1 is the loop filter's; the others are not read.
    pub feature_enabled: [[bool; 4]; 8],
    /// By segment and feature, any numbers. What they give is clipped to 0 to 63.
    pub feature_data: [[i16; 4]; 8],
}

/// The levels of a frame, 0 to 63, at segment * 8 + reference * 2 + mode type. Refused with 6.
pub fn level_table(
    loop_filter: &LoopFilter,
    segmentation: &Segmentation,
) -> Result<[u8; 64], Refused> {
    let [r0, r1, r2, r3] = loop_filter.ref_deltas;
    let [m0, m1] = loop_filter.mode_deltas;
    let header = [r0, r1, r2, r3, m0, m1];
    let deltas = header.map(Option::unwrap_or_default);
    let present = header.map(|delta| delta.is_some());
    let enabled = segmentation.feature_enabled.as_flattened();
    let data = segmentation.feature_data.as_flattened();
    let mut levels = [0; 64];
    // SAFETY: each pointer goes with the length of its own list.
    let refusal = unsafe {
        c::springspade_level_table(
            loop_filter.level,
            loop_filter.delta_enabled,
            loop_filter.delta_update,
            deltas.as_ptr(),
            deltas.len(),
            present.as_ptr(),
            present.len(),
            segmentation.enabled,
            segmentation.abs_or_delta_update,
            enabled.as_ptr(),
            enabled.len(),
            data.as_ptr(),
            data.len(),
            levels.as_mut_ptr(),
            levels.len(),
        )
    };
    accepted(refusal)?;
    Ok(levels)
}
