//! The pass over a superblock of a plane.

use crate::refused::{Refused, accepted};
use crate::{Frame, c};

/// The rows of a plane that are lent. A pass needs the rows of its superblock and the eight above; with more the answer
/// is the same. Taps outside of the window are read at its border and not written, which is right at the border of the
/// plane alone.
#[derive(Debug, Clone, Copy, PartialEq, Eq)]
pub struct Window {
    /// Samples of a row, 1 to 65,536, from the plane's first column on.
    pub width: usize,
    /// Rows, at least 1.
    pub height: usize,
    /// How many samples lie between the starts of two rows, `width` to 131,072. Those behind `width` are neither read nor
    /// written.
    pub stride: usize,
    /// The plane's row that comes first. It is at most 65,536 less `height`.
    pub y_origin: usize,
}

/// A superblock of a plane, and which of its edges are filtered.
#[derive(Debug, Clone, Copy, PartialEq, Eq)]
pub struct Superblock {
    /// Its first row in cells, a multiple of 8 below `mi_rows`.
    pub mi_row: usize,
    /// Its first column in cells, a multiple of 8 below `mi_cols`.
    pub mi_col: usize,
    /// 0 for luma, 1 and 2 for chroma.
    pub plane: u8,
    /// 0 for vertical edges, which come first, 1 for horizontal ones.
    pub pass: u8,
}

/// Filters the edges of a superblock in place. `cells` are those that [`row`](crate::row) made for its superblock row.
/// The window's samples are `samples[y * stride + x]`, each below 2 to the depth; all of them are tested at each call.
/// Refused with 1 to 5, 7, 9, 10, 11 (its place is the cell), 12, 13 (its place is the sample, row * width + column) or 14 (its
/// place is edge * 64 + position).
#[inline]
pub fn pass(
    samples: &mut [u16],
    window: &Window,
    cells: &[u32],
    frame: &Frame,
    at: &Superblock,
) -> Result<(), Refused> {
    // SAFETY: each pointer goes with the length of its own slice.
    accepted(unsafe {
        c::springspade_pass(
            samples.as_mut_ptr(),
            samples.len(),
            cells.as_ptr(),
            cells.len(),
            window.width,
            window.height,
            window.stride,
            window.y_origin,
            frame.sharpness,
            frame.bit_depth,
            frame.sub_x,
            frame.sub_y,
            frame.mi_cols,
            frame.mi_rows,
            at.mi_row,
            at.mi_col,
            at.plane,
            at.pass,
        )
    })
}

/// [`pass`] without its tests, for a caller who has made them, perhaps once for many passes: a pass leaves samples in range.
///
/// # Safety
///
/// [`pass`] must accept these very arguments, with the samples as they are at the call. Where it would not, the work may
/// read and write outside of the slices.
#[inline]
pub unsafe fn pass_unchecked(
    samples: &mut [u16],
    window: &Window,
    cells: &[u32],
    frame: &Frame,
    at: &Superblock,
) {
    // SAFETY: each pointer goes with the length of its own slice; the caller answers for the rest.
    unsafe {
        c::springspade_pass_unchecked(
            samples.as_mut_ptr(),
            samples.len(),
            cells.as_ptr(),
            cells.len(),
            window.width,
            window.height,
            window.stride,
            window.y_origin,
            frame.sharpness,
            frame.bit_depth,
            frame.sub_x,
            frame.sub_y,
            frame.mi_cols,
            frame.mi_rows,
            at.mi_row,
            at.mi_col,
            at.plane,
            at.pass,
        );
    }
}
