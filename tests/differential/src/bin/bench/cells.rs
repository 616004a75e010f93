//! Cells of a superblock row.

use crate::row::{nanoseconds, row};
use differential::cells::packed;
use differential::random::Random;
use differential::rows::{Block, Row};
use differential::rust;
use oracle::superblock_loop_filter::hook_row;
use springspade::Frame;
use std::{array, hint::black_box};

const RUNS: usize = 2_000;

pub fn rows() {
    cells("row of 1,920 cells, 4:4:4, a cell", 0);
    cells("row of 1,920 cells, 4:2:0, a cell", 1);
}

/// A random one that has a level, as all of a stream's have.
fn block(random: &mut Random) -> Block {
    let (ref_frame, segment_id) = (random.between(0, 3) as i32, random.between(0, 7) as u8);
    Block { ref_frame, segment_id, ..Block::random(random) }
}

/// 8 rows of a frame 1,920 samples wide. The Rust also makes the list and the 64 strengths.
fn cells(name: &str, sub: u8) {
    let frame =
        Frame { sharpness: 0, bit_depth: 8, sub_x: sub, sub_y: sub, mi_cols: 240, mi_rows: 135 };
    let levels = array::from_fn(|k| k as u8);
    let mut random = Random(15);
    let blocks = (0..8 * frame.mi_cols).map(|_| block(&mut random)).collect();
    let case = Row { frame, base: 64, levels, blocks };
    let info = case.info();
    let mut words = vec![0; case.cells()];
    let mut ours = || {
        let (info, levels, frame) = black_box((&info, &levels, &frame));
        let _ = black_box(springspade::row(info, levels, frame, case.base, &mut words));
    };
    rust::with_frame(&case, |frame| {
        let rust = || {
            black_box(hook_row(black_box(frame), case.base as u32));
        };
        row(name, RUNS, case.cells(), || nanoseconds(&mut ours), || nanoseconds(rust));
    });
    let expected: Vec<u32> = rust::row(&case).iter().map(packed).collect();
    assert!(words == expected, "{name}: ours and the Rust's cells differ");
}
