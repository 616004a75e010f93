//! Springspade in place of the loop filter of oxideav-vp9: a module for that decoder, not a program.
//!
//! `LfRowCells` and `superblock_loop_filter_cells` have the names and arguments of the Rust's own, so that the decoder's
//! frame driver calls these as it called those. What panics there is a refusal here, and windows are of u16 samples.
//! `tests/differential/tests/oxideav.rs` compiles this file and compares it with the Rust.

// In the decoder: `use crate::superblock_loop_filter::SuperblockFilterFrame;`
use oracle::superblock_loop_filter::SuperblockFilterFrame;
use springspade::{Frame, ModeInfo, Refused, Superblock, Window};

/// The cells of a superblock row, and what holds in its frame.
pub struct LfRowCells {
    cells: Vec<u32>,
    frame: Frame,
}

impl LfRowCells {
    /// From the frame's lists, which start at row `mi_row_base`.
    pub fn new(frame: &SuperblockFilterFrame, mi_row_base: u32) -> Result<LfRowCells, Refused> {
        let skips: Vec<u8> = frame.skips.iter().map(|&skip| skip.into()).collect();
        let info = ModeInfo {
            mi_sizes: frame.mi_sizes,
            tx_sizes: frame.tx_sizes,
            skips: &skips,
            ref_frames: frame.ref_frames_0,
            y_modes: frame.y_modes,
            segment_ids: frame.segment_ids,
        };
        let levels = frame.lvl_lookup.levels.as_flattened().as_flattened();
        let levels = levels.try_into().expect("8 segments, 4 references, 2 mode types");
        let frame = Frame {
            sharpness: frame.loop_filter_sharpness,
            bit_depth: frame.bit_depth,
            sub_x: frame.subsampling_x,
            sub_y: frame.subsampling_y,
            mi_cols: frame.mi_cols as usize,
            mi_rows: frame.mi_rows as usize,
        };
        let mut cells = vec![0; 8 * frame.mi_cols];
        springspade::row(&info, levels, &frame, mi_row_base as usize, &mut cells)?;
        Ok(LfRowCells { cells, frame })
    }
}

/// The rows of a plane from `y_origin` on.
pub struct PlaneWindow<'a> {
    pub data: &'a mut [u16],
    pub stride: usize,
    pub width: usize,
    pub height: usize,
    pub y_origin: usize,
}

/// One pass over a superblock, whose place is in cells.
pub fn superblock_loop_filter_cells(
    plane_buf: &mut PlaneWindow,
    lf: &LfRowCells,
    plane: u8,
    pass: u8,
    row: u32,
    col: u32,
) -> Result<(), Refused> {
    let PlaneWindow { data, stride, width, height, y_origin } = plane_buf;
    let window = Window { width: *width, height: *height, stride: *stride, y_origin: *y_origin };
    let at = Superblock { mi_row: row as usize, mi_col: col as usize, plane, pass };
    springspade::pass(data, &window, &lf.cells, &lf.frame, &at)
}
