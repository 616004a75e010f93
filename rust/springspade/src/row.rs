//! The packed cells of a superblock row.

use crate::c;
use crate::refused::{Refused, accepted};

/// The mode info of a superblock row: in each list an entry for each cell, row by row, from the row's first cell on. Entries
/// behind the row's cells are not read. A decoder has the same for a whole frame and lends it from a superblock row on
/// ([`from_cell`](ModeInfo::from_cell)).
#[derive(Debug, Clone, Copy)]
pub struct ModeInfo<'a> {
    /// The block's size: 0 for 4x4, then 4x8, 8x4, 8x8 (3), 8x16, 16x8, 16x16 (6), 16x32, 32x16, 32x32 (9), 32x64, 64x32
    /// and 64x64 (12), width first.
    pub mi_sizes: &'a [u8],
    /// The luma transform: 0 for 4x4, 1 for 8x8, 2 for 16x16, 3 for 32x32.
    pub tx_sizes: &'a [u8],
    /// 1 where the block has no coefficients, else 0.
    pub skips: &'a [u8],
    /// The block's first reference: 0 for intra, 1 last, 2 golden, 3 altref. Any other has no level.
    pub ref_frames: &'a [i32],
    /// The block's mode: 0 to 9 intra, 10 NEARESTMV, 11 NEARMV, 12 ZEROMV, 13 NEWMV. Any other counts as 0.
    pub y_modes: &'a [u8],
    /// The block's segment, 0 to 7. Any other has no level.
    pub segment_ids: &'a [u8],
}

impl<'a> ModeInfo<'a> {
    /// The lists from entry `first` on, empty where they end before it.
    #[must_use]
    pub fn from_cell(&self, first: usize) -> ModeInfo<'a> {
        fn from<T>(list: &[T], first: usize) -> &[T] {
            list.get(first..).unwrap_or_default()
        }
        ModeInfo {
            mi_sizes: from(self.mi_sizes, first),
            tx_sizes: from(self.tx_sizes, first),
            skips: from(self.skips, first),
            ref_frames: from(self.ref_frames, first),
            y_modes: from(self.y_modes, first),
            segment_ids: from(self.segment_ids, first),
        }
    }
}

/// What holds in the whole frame.
#[derive(Debug, Clone, Copy, PartialEq, Eq)]
pub struct Frame {
    /// loop_filter_sharpness, 0 to 7.
    pub sharpness: u8,
    /// 8, 10 or 12 bits to a sample.
    pub bit_depth: u8,
    /// Whether planes 1 and 2 are subsampled across: 0 or 1. 4:2:0 has 1 and 1, 4:4:4 has 0 and 0.
    pub sub_x: u8,
    /// Whether planes 1 and 2 are subsampled down: 0 or 1.
    pub sub_y: u8,
    /// The frame's width in cells of 8 luma samples, 1 to 8,192.
    pub mi_cols: usize,
    /// The frame's height in cells of 8 luma samples, 1 to 8,192.
    pub mi_rows: usize,
}

/// Packs the cells of a superblock row into the first words of `cells`, and leaves those behind. `levels` is the frame's
/// [`level_table`](crate::level_table). The row starts at `mi_row`, a multiple of 8 below `mi_rows`, and has
/// `min(8, mi_rows - mi_row) * mi_cols` cells. Refused with 1 to 5, 6 (its place is the entry of the table), 7 or 8 (its
/// place is the cell).
#[inline]
pub fn row(
    info: &ModeInfo,
    levels: &[u8; 64],
    frame: &Frame,
    mi_row: usize,
    cells: &mut [u32],
) -> Result<(), Refused> {
    // SAFETY: each pointer goes with the length of its own slice.
    accepted(unsafe {
        c::springspade_row(
            info.mi_sizes.as_ptr(),
            info.mi_sizes.len(),
            info.tx_sizes.as_ptr(),
            info.tx_sizes.len(),
            info.skips.as_ptr(),
            info.skips.len(),
            info.ref_frames.as_ptr(),
            info.ref_frames.len(),
            info.y_modes.as_ptr(),
            info.y_modes.len(),
            info.segment_ids.as_ptr(),
            info.segment_ids.len(),
            levels,
            frame.sharpness,
            frame.bit_depth,
            frame.sub_x,
            frame.sub_y,
            frame.mi_cols,
            frame.mi_rows,
            mi_row,
            cells.as_mut_ptr(),
            cells.len(),
        )
    })
}
