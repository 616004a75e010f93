//! The Rust's pass.

use crate::cells::unpacked;
use crate::passes::Pass;
use crate::quiet::panic_of;
use crate::rows::Row;
use oracle::frame_buf::Px;
use oracle::superblock_loop_filter::{HookCell, HookRow, hook_pass_lists};
use springspade::{Cell, Frame, Superblock, Window};

/// The lent samples after the pass over the cells; none where the Rust panics for a cell without level.
pub fn pass(pass: &Pass) -> Option<Vec<u16>> {
    let cells = cells(pass);
    levelled(move || over(pass, &cells))
}

/// The same over the low bytes of the samples.
pub fn pass_bytes(pass: &Pass) -> Option<Vec<u16>> {
    let cells = cells(pass);
    levelled(move || over_samples::<u8>(pass, &cells))
}

/// The same as over cells, from mode info. The pass is one over the cells of this row.
pub fn pass_lists(row: &Row, pass: &Pass) -> Option<Vec<u16>> {
    let Window { width, height, stride, y_origin } = pass.window;
    let Superblock { mi_row: base, mi_col: col, plane, pass: number } = pass.at;
    levelled(|| {
        let mut samples = lent::<u16>(pass);
        super::with_frame(row, |frame| {
            let (base, col) = (base as u32, col as u32);
            hook_pass_lists(
                &mut samples,
                stride,
                width,
                height,
                y_origin,
                frame,
                base,
                plane,
                number,
                base,
                col,
            );
        });
        returned(pass, samples)
    })
}

/// The pass over these cells, whatever it does with them.
pub fn over(pass: &Pass, cells: &HookRow) -> Vec<u16> {
    over_samples::<u16>(pass, cells)
}

fn over_samples<S: Px>(pass: &Pass, cells: &HookRow) -> Vec<u16> {
    let Window { width, height, stride, y_origin } = pass.window;
    let Superblock { mi_row: row, mi_col: col, plane, pass: number } = pass.at;
    let mut samples = lent::<S>(pass);
    cells.pass(
        &mut samples,
        stride,
        width,
        height,
        y_origin,
        plane,
        number,
        row as u32,
        col as u32,
    );
    returned(pass, samples)
}

/// The cells in the Rust's form.
pub fn cells(pass: &Pass) -> HookRow {
    let Frame { sharpness, bit_depth: depth, sub_x, sub_y, mi_cols, mi_rows } = pass.frame;
    let (base, mi_cols, mi_rows) = (pass.at.mi_row as u32, mi_cols as u32, mi_rows as u32);
    HookRow::from_cells(&hook_cells(pass), base, mi_cols, mi_rows, sub_x, sub_y, depth, sharpness)
}

pub(super) fn hook_cells(pass: &Pass) -> Vec<HookCell> {
    let words = &pass.cells[..pass.row_cells()];
    words.iter().map(|&word| hook_cell(unpacked(word).0)).collect()
}

/// 255 stands for an absent level.
fn hook_cell(cell: Cell) -> HookCell {
    let Cell { width0, width1, height0, height1, tx, uvtx, skipped, present, level } = cell;
    let masks = [[width0, width1], [height0, height1]].map(|logs| logs.map(|log| (8 << log) - 1));
    (masks, tx, uvtx, skipped, if present { level } else { 255 })
}

/// Behind what is lent.
const BEHIND: i32 = 0xbe;

/// The Rust asks for whole rows, also the last.
fn lent<S: Px>(pass: &Pass) -> Vec<S> {
    let mut samples: Vec<S> = pass.samples.iter().map(|&sample| S::put(sample.into())).collect();
    let whole = pass.window.stride * pass.window.height;
    samples.resize(whole.max(samples.len()), S::put(BEHIND));
    samples
}

/// What was lent to ours; behind it nothing may be written.
fn returned<S: Px>(pass: &Pass, mut samples: Vec<S>) -> Vec<u16> {
    let behind = samples.split_off(pass.samples.len());
    assert!(behind.iter().all(|sample| sample.get() == BEHIND), "{}", pass.call());
    samples.into_iter().map(|sample| sample.get() as u16).collect()
}

/// None where the Rust panics for a cell without level.
pub(super) fn levelled<T>(run: impl FnOnce() -> T) -> Option<T> {
    match panic_of(run) {
        Ok(samples) => Some(samples),
        Err(message) if message.contains("segment_id must be < 8") => None,
        Err(message) => panic!("the Rust: {message}"),
    }
}
