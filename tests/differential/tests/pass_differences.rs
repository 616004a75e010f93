//! The pass's inputs of docs/DIFFERENCES.md: where ours refuses, what the Rust does.
#![cfg(oracle)]

use differential::passes::Pass;
use differential::quiet::panic_of;
use differential::returned::Returned;
use differential::rust;
use oracle::superblock_loop_filter::{HookCell, HookRow};
use springspade::{Frame, Superblock, Window};

/// The cell of an 8 by 8 block in the Rust's form, transform 1, level 32.
const CELL: HookCell = ([[7, 15], [7, 15]], 1, 1, false, 32);

/// The same without level.
const LEVELLESS: HookCell = ([[7, 15], [7, 15]], 1, 1, false, 255);

/// Two cells beside each other, a step of 4 between them.
fn two_cells() -> Pass {
    let samples: Vec<u16> = (0..16).map(|x| if x < 8 { 100 } else { 104 }).collect();
    Pass {
        frame: Frame { sharpness: 0, bit_depth: 8, sub_x: 0, sub_y: 0, mi_cols: 2, mi_rows: 1 },
        at: Superblock { mi_row: 0, mi_col: 0, plane: 0, pass: 0 },
        cells: vec![0x1156_0000; 2],
        window: Window { width: 16, height: 1, stride: 16, y_origin: 0 },
        samples,
    }
}

fn with(change: impl FnOnce(&mut Pass)) -> Pass {
    let mut pass = two_cells();
    change(&mut pass);
    pass
}

/// The Rust's row of these cells, whatever the frame.
fn row(pass: &Pass, cells: &[HookCell]) -> HookRow {
    let Frame { sharpness, bit_depth: depth, sub_x, sub_y, mi_cols, mi_rows } = pass.frame;
    let (mi_cols, mi_rows) = (mi_cols as u32, mi_rows as u32);
    HookRow::from_cells(cells, 0, mi_cols, mi_rows, sub_x, sub_y, depth, sharpness)
}

/// Ours is refused; the Rust's samples after the pass over so many cells, or its panic.
fn refused(pass: &Pass, number: u32, place: u32, cells: usize) -> Result<Vec<u16>, String> {
    let (returned, after) = pass.ours();
    assert_eq!(returned, Returned { number, place }, "{}", pass.call());
    assert_eq!(after, pass.samples);
    let cells = row(pass, &vec![CELL; cells]);
    panic_of(|| rust::over(pass, &cells))
}

/// What both leave of the step: M9.
const FILTERED: [u16; 16] =
    [100, 100, 100, 100, 100, 101, 101, 102, 103, 103, 104, 104, 104, 104, 104, 104];

#[test]
fn accepted() {
    let pass = two_cells();
    assert_eq!(pass.ours(), (Returned { number: 0, place: 0 }, FILTERED.to_vec()));
    assert_eq!(rust::over(&pass, &row(&pass, &[CELL; 2])), FILTERED);
}

#[test]
fn sharpness_8() {
    let after = refused(&with(|pass| pass.frame.sharpness = 8), 1, 0, 2).unwrap();
    assert_eq!(after, FILTERED);
}

#[test]
fn depth_9() {
    let after = refused(&with(|pass| pass.frame.bit_depth = 9), 2, 0, 2).unwrap();
    assert_eq!(after, FILTERED);
}

#[test]
fn bytes_at_depth_10() {
    let pass = with(|pass| pass.frame.bit_depth = 10);
    let (returned, after) = pass.ours_by_bytes(&pass.cell_bytes(), 0);
    assert_eq!(returned, Returned { number: 2, place: 0 });
    assert_eq!(after, pass.samples);
    assert_eq!(rust::pass_bytes(&pass).unwrap(), FILTERED);
}

/// In plane 0 as 0. In plane 1 the superblock has four edges, 16 luma samples apart: none is at x = 8.
#[test]
fn subsampling_2() {
    let after = refused(&with(|pass| pass.frame.sub_x = 2), 3, 0, 2).unwrap();
    assert_eq!(after, FILTERED);
    let chroma = with(|pass| (pass.frame.sub_x, pass.at.plane) = (2, 1));
    assert_eq!(refused(&chroma, 3, 0, 2).unwrap(), chroma.samples);
}

#[test]
fn frame_size() {
    let none = with(|pass| pass.frame.mi_cols = 0);
    assert_eq!(refused(&none, 4, 0, 2).unwrap(), none.samples);
    let many = with(|pass| pass.frame.mi_cols = 8193);
    assert_eq!(refused(&many, 4, 0, 8193).unwrap(), FILTERED);
}

/// As any row and column: of the second cell no edge is at x = 8, but the first.
#[test]
fn row_and_column() {
    let below = with(|pass| pass.at.mi_row = 1);
    assert_eq!(refused(&below, 5, 0, 2).unwrap(), below.samples);
    let second = with(|pass| pass.at.mi_col = 1);
    assert_eq!(refused(&second, 10, 0, 2).unwrap(), FILTERED);
    let behind = with(|pass| pass.at.mi_col = 2);
    assert_eq!(refused(&behind, 10, 0, 2).unwrap(), behind.samples);
}

/// Its index panics where it reads the cell.
#[test]
fn cells_too_few() {
    let short = with(|pass| pass.cells.truncate(1));
    assert!(refused(&short, 7, 0, 1).unwrap_err().contains("out of bounds"));
}

/// As chroma.
#[test]
fn plane_3() {
    let plane = with(|pass| pass.at.plane = 3);
    assert_eq!(refused(&plane, 9, 0, 2).unwrap(), FILTERED);
}

/// As horizontal, without the last row's rule: there size 2 stays, M10 where pass 1 has M9.
#[test]
fn pass_2() {
    let column = with(|pass| {
        pass.frame = Frame { sub_y: 1, mi_cols: 1, mi_rows: 3, ..pass.frame };
        pass.at = Superblock { plane: 1, pass: 2, ..pass.at };
        pass.window = Window { width: 1, height: 16, stride: 1, y_origin: 0 };
        pass.cells = vec![0x1166_0000; 3];
    });
    assert_eq!(column.ours(), (Returned { number: 9, place: 0 }, column.samples.clone()));
    let cells = row(&column, &[(CELL.0, 1, 2, false, 32); 3]);
    let wide = [100, 100, 101, 101, 101, 101, 102, 102, 102, 103, 103, 103, 103, 104, 104, 104];
    assert_eq!(rust::over(&column, &cells), wide);
    let column = Pass { at: Superblock { pass: 1, ..column.at }, ..column };
    assert_eq!(rust::over(&column, &cells), FILTERED);
    assert_eq!(column.ours().1, FILTERED);
}

/// Rows that overlap; a window without columns; one without rows.
#[test]
fn window_shape() {
    let overlapping = with(|pass| {
        (pass.window.height, pass.window.stride) = (2, 15);
        pass.samples.resize(32, 104);
    });
    let after = refused(&overlapping, 12, 0, 2).unwrap();
    assert_eq!(after[..15], FILTERED[..15]);
    let narrow = with(|pass| pass.window.width = 0);
    assert!(refused(&narrow, 12, 0, 2).is_err());
    let low = with(|pass| pass.window.height = 0);
    assert!(refused(&low, 12, 0, 2).is_err());
    let short = with(|pass| pass.samples.truncate(15));
    assert_eq!(refused(&short, 12, 0, 2).unwrap(), FILTERED[..15]);
}

/// Where p3 is larger by 2, the narrow filter takes p1 to q1 down to 255.
#[test]
fn sample_256() {
    let large = with(|pass| {
        pass.samples.fill(256);
        pass.samples[4] = 258;
    });
    let mut after = large.samples.clone();
    after[6..10].fill(255);
    assert_eq!(refused(&large, 13, 0, 2).unwrap(), after);
}

/// It panics after it has filtered the edges before.
#[test]
fn without_level() {
    let pass = with(|pass| {
        pass.frame.mi_cols = 3;
        pass.cells = vec![0x1156_0000, 0x1156_0000, 0x1150_0000];
    });
    let (returned, after) = pass.ours();
    assert_eq!(returned, Returned { number: 14, place: 4 * 64 });
    assert_eq!(after, pass.samples);
    let mut samples = pass.samples.clone();
    let cells = row(&pass, &[CELL, CELL, LEVELLESS]);
    let panicked = panic_of(|| cells.pass(&mut samples, 16, 16, 1, 0, 0, 0, 0, 0));
    assert!(panicked.is_err());
    assert_eq!(samples, FILTERED);
}
