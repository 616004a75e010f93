//! The row's inputs of docs/DIFFERENCES.md: where ours refuses, what the Rust does.
#![cfg(oracle)]

use differential::rows::{Block, Row};
use differential::rust;
use oracle::superblock_loop_filter::hook_row;
use springspade::{Cell, Frame, Refused, row};
use std::panic::{AssertUnwindSafe, catch_unwind};

/// A frame of so many blocks of 8 by 8, level 1.
fn frame_of(mi_cols: usize, mi_rows: usize) -> Row {
    let frame = Frame { sharpness: 0, bit_depth: 8, sub_x: 0, sub_y: 0, mi_cols, mi_rows };
    let block = Block { mi_size: 3, tx_size: 1, skip: 0, ref_frame: 0, y_mode: 0, segment_id: 0 };
    let blocks = (0..mi_cols * mi_rows).map(|_| block).collect();
    Row { frame, base: 0, levels: [1; 64], blocks }
}

/// The cell of such a block.
const CELL: Cell = Cell {
    width0: 0,
    width1: 1,
    height0: 0,
    height1: 1,
    tx: 1,
    uvtx: 1,
    skipped: false,
    present: true,
    level: 1,
};

/// A frame of one block, changed.
fn with(change: impl FnOnce(&mut Row)) -> Row {
    let mut row = frame_of(1, 1);
    change(&mut row);
    row
}

fn ours_refuses(case: &Row, number: u32) {
    let refused = row(&case.info(), &case.levels, &case.frame, case.base, &mut [0; 9000]);
    assert_eq!(refused, Err(Refused { number, place: 0 }));
}

/// Ours is refused at place 0; the Rust's cells are returned.
fn refused(case: &Row, number: u32) -> Vec<Cell> {
    ours_refuses(case, number);
    rust::row(case)
}

fn panics<T>(run: impl FnOnce() -> T) -> bool {
    catch_unwind(AssertUnwindSafe(run)).is_err()
}

#[test]
fn sharpness_8() {
    assert_eq!(refused(&with(|row| row.frame.sharpness = 8), 1), [CELL]);
}

#[test]
fn depth_9() {
    assert_eq!(refused(&with(|row| row.frame.bit_depth = 9), 2), [CELL]);
}

#[test]
fn subsampling_2() {
    // As 0; with 1 the chroma transform is 0.
    assert_eq!(refused(&with(|row| row.frame.sub_x = 2), 3), [CELL]);
    assert_eq!(refused(&with(|row| row.frame.sub_y = 2), 3), [CELL]);
    assert_eq!(rust::row(&with(|row| row.frame.sub_x = 1)), [Cell { uvtx: 0, ..CELL }]);
}

#[test]
fn frame_size() {
    assert_eq!(refused(&frame_of(0, 1), 4), []);
    assert_eq!(refused(&frame_of(1, 0), 4), []);
    assert_eq!(refused(&frame_of(8193, 1), 4), [CELL; 8193]);
}

#[test]
fn base_1() {
    assert_eq!(refused(&Row { base: 1, ..frame_of(1, 1) }, 5), []);
    assert_eq!(refused(&Row { base: 1, ..frame_of(1, 2) }, 5), [CELL]);
}

#[test]
fn level_64() {
    assert_eq!(refused(&with(|row| row.levels[0] = 64), 6), [Cell { level: 64, ..CELL }]);
}

/// 255 is the Rust's mark of a cell without level, which its pass does not take.
#[test]
fn level_255() {
    let mut case = frame_of(2, 1);
    case.levels[0] = 255;
    assert_eq!(refused(&case, 6), [Cell { present: false, level: 0, ..CELL }; 2]);
    let pass = |case: &Row| {
        let cells = rust::with_frame(case, |frame| hook_row(frame, 0));
        panics(|| cells.pass(&mut [0u16; 128], 16, 16, 8, 0, 0, 0, 0, 0))
    };
    assert!(pass(&case));
    assert!(!pass(&frame_of(2, 1)));
}

#[test]
fn short_list() {
    let case = with(|row| row.blocks.skips.clear());
    ours_refuses(&case, 7);
    assert!(panics(|| rust::row(&case)));
}

#[test]
fn size_13() {
    let case = with(|row| row.blocks.mi_sizes[0] = 13);
    ours_refuses(&case, 8);
    assert!(panics(|| rust::row(&case)));
}

#[test]
fn transform_4() {
    // Does not fit its bits.
    assert_eq!(refused(&with(|row| row.blocks.tx_sizes[0] = 4), 8), [Cell { tx: 4, ..CELL }]);
}
