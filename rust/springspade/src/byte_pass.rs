//! The pass over a superblock of a plane of bytes.

use crate::refused::{Refused, accepted};
use crate::{Frame, Superblock, Window, c};

/// [`pass`](crate::pass) over a plane of bytes, whose depth is 8. `cells` are those that [`row`](crate::row) made for the
/// superblock row, as [`cell_bytes`](crate::cell_bytes) gives them; what stands behind them is not read. No sample is
/// tested, as every byte is below 2 to the depth. Refused with 1, 2 (depth other than 8), 3 to 5, 7, 9, 10, 11 (its place
/// is the cell), 12 or 14 (its place is edge * 64 + position).
///
/// ```
/// use springspade::{Frame, Superblock, Window, cell_bytes, pass_bytes};
///
/// // Two blocks of 8x8 with level 32, side by side: one row of samples across the edge between them.
/// let frame = Frame { sharpness: 0, bit_depth: 8, sub_x: 0, sub_y: 0, mi_cols: 2, mi_rows: 1 };
/// let window = Window { width: 16, height: 1, stride: 16, y_origin: 0 };
/// let at = Superblock { mi_row: 0, mi_col: 0, plane: 0, pass: 0 };
/// let mut luma = [[100; 8], [104; 8]].concat();
/// pass_bytes(&mut luma, &window, &cell_bytes(&[0x1156_0000; 2]), &frame, &at)?;
/// assert_eq!(luma[5..11], [101, 101, 102, 103, 103, 104]);
/// # Ok::<(), springspade::Refused>(())
/// ```
#[inline]
pub fn pass_bytes(
    samples: &mut [u8],
    window: &Window,
    cells: &[u8],
    frame: &Frame,
    at: &Superblock,
) -> Result<(), Refused> {
    // SAFETY: each pointer goes with the length of its own slice.
    accepted(unsafe {
        c::springspade_pass_bytes(
            samples.as_mut_ptr(),
            samples.len(),
            cells.as_ptr(),
            cells.len(),
            window.width,
            window.height,
            window.stride,
            window.y_origin,
            frame.sharpness,
            frame.bit_depth,
            frame.sub_x,
            frame.sub_y,
            frame.mi_cols,
            frame.mi_rows,
            at.mi_row,
            at.mi_col,
            at.plane,
            at.pass,
        )
    })
}

/// [`pass_bytes`] without its tests, for a caller who has made them, perhaps once for many passes. `cells` are words, as
/// [`row`](crate::row) made them.
///
/// # Safety
///
/// [`pass_bytes`] must accept these arguments, with the words as [`cell_bytes`](crate::cell_bytes) gives them; so
/// `frame.bit_depth` is 8. Where it would not, the work may read and write outside of the slices.
#[inline]
pub unsafe fn pass_bytes_unchecked(
    samples: &mut [u8],
    window: &Window,
    cells: &[u32],
    frame: &Frame,
    at: &Superblock,
) {
    // SAFETY: each pointer goes with the length of its own slice; the caller answers for the rest.
    unsafe {
        c::springspade_pass_bytes_unchecked(
            samples.as_mut_ptr(),
            samples.len(),
            cells.as_ptr(),
            cells.len(),
            window.width,
            window.height,
            window.stride,
            window.y_origin,
            frame.sharpness,
            frame.sub_x,
            frame.sub_y,
            frame.mi_cols,
            frame.mi_rows,
            at.mi_row,
            at.mi_col,
            at.plane,
            at.pass,
        );
    }
}
