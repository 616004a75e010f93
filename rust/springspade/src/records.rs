//! The forms by records: a window that holds its samples, and cells with a byte for each field.

use crate::c::{self, PassNumbers, RowNumbers};
use crate::refused::{Refused, accepted};
use crate::{Cell, Frame, ModeInfo, Superblock, Window};

pub use crate::c::CellRecord;

/// A window together with the samples that it is of.
#[derive(Debug)]
pub struct PlaneWindow<'a> {
    /// The lent samples; those of the window are `samples[y * stride + x]`.
    pub samples: &'a mut [u16],
    /// Which of them are the window's.
    pub shape: Window,
}

/// [`pass`](crate::pass) over a window that holds its samples.
#[inline]
pub fn pass_window(
    window: PlaneWindow,
    cells: &[u32],
    frame: &Frame,
    at: &Superblock,
) -> Result<(), Refused> {
    let PlaneWindow { samples, shape: Window { width, height, stride, y_origin } } = window;
    // SAFETY: each pointer goes with the length of its own slice.
    accepted(unsafe {
        c::springspade_pass_window(
            samples.as_mut_ptr(),
            samples.len(),
            cells.as_ptr(),
            cells.len(),
            width,
            height,
            stride,
            y_origin,
            numbers(frame, at),
        )
    })
}

fn numbers(frame: &Frame, at: &Superblock) -> PassNumbers {
    PassNumbers {
        sharpness: frame.sharpness,
        bit_depth: frame.bit_depth,
        sub_x: frame.sub_x,
        sub_y: frame.sub_y,
        mi_cols: frame.mi_cols,
        mi_rows: frame.mi_rows,
        mi_row: at.mi_row,
        mi_col: at.mi_col,
        plane: at.plane,
        pass: at.pass,
    }
}

impl From<Cell> for CellRecord {
    fn from(cell: Cell) -> CellRecord {
        CellRecord {
            width0: cell.width0,
            width1: cell.width1,
            height0: cell.height0,
            height1: cell.height1,
            tx: cell.tx,
            uvtx: cell.uvtx,
            skipped: cell.skipped.into(),
            present: cell.present.into(),
            level: cell.level,
        }
    }
}

/// [`pass`](crate::pass) over cells as records. A field that is too large for its bits of the word is refused as a word
/// with a zero bit set is: 11, with the cell as its place. Each call packs the whole row, and takes a little more than
/// 256 KiB of stack.
#[inline]
pub fn pass_records(
    samples: &mut [u16],
    window: &Window,
    records: &[CellRecord],
    frame: &Frame,
    at: &Superblock,
) -> Result<(), Refused> {
    // SAFETY: each pointer goes with the length of its own slice. On a thread with too little stack the call ends the
    // program: it touches every page of its frame, and so the page that guards the stack's end.
    accepted(unsafe {
        c::springspade_pass_records(
            samples.as_mut_ptr(),
            samples.len(),
            records.as_ptr(),
            records.len(),
            window.width,
            window.height,
            window.stride,
            window.y_origin,
            numbers(frame, at),
        )
    })
}

/// [`row`](crate::row) into a list of records. Records behind the row's cells are left. A call takes a little more than
/// 256 KiB of stack.
#[inline]
pub fn row_records(
    info: &ModeInfo,
    levels: &[u8; 64],
    frame: &Frame,
    mi_row: usize,
    records: &mut [CellRecord],
) -> Result<(), Refused> {
    let numbers = RowNumbers {
        sharpness: frame.sharpness,
        bit_depth: frame.bit_depth,
        sub_x: frame.sub_x,
        sub_y: frame.sub_y,
        mi_cols: frame.mi_cols,
        mi_rows: frame.mi_rows,
        mi_row,
    };
    // SAFETY: each pointer goes with the length of its own slice; of the stack holds what `pass_records` says.
    accepted(unsafe {
        c::springspade_row_records(
            info.mi_sizes.as_ptr(),
            info.mi_sizes.len(),
            info.tx_sizes.as_ptr(),
            info.tx_sizes.len(),
            info.skips.as_ptr(),
            info.skips.len(),
            info.ref_frames.as_ptr(),
            info.ref_frames.len(),
            info.y_modes.as_ptr(),
            info.y_modes.len(),
            info.segment_ids.as_ptr(),
            info.segment_ids.len(),
            levels,
            numbers,
            records.as_mut_ptr(),
            records.len(),
        )
    })
}
