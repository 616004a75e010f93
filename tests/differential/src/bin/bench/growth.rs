//! How the time of a superblock's passes grows with the positions that are filtered, as CSV.

use crate::planes::{Planes, planes, window};
use crate::row::least;
use crate::superblocks::Superblocks;
use differential::random::Random;
use differential::rows::{Block, Blocks, Row};
use springspade::Frame;

const RUNS: usize = 400;

/// Superblocks of other samples side by side, so that the branch predictor cannot learn them. One more on
/// each side, and eight rows above and below, are lent and not filtered: no position is at the window's border.
const SUPERBLOCKS: usize = 16;
const MARGIN: usize = 8;

const DEPTH: u8 = 8;

/// Block size, and transform: the next finer one has about twice as many positions.
#[derive(Clone, Copy)]
struct Kind {
    mi_size: u8,
    tx_size: u8,
    skip: u8,
}

/// One block of 64x64: skipped, and with transforms of 32x32.
const WHOLE: [Kind; 2] =
    [Kind { mi_size: 12, tx_size: 3, skip: 1 }, Kind { mi_size: 12, tx_size: 3, skip: 0 }];

/// What a quarter of 32x32 is split into: 32x32 with transforms of 32x32 and of 16x16, 16x16 with transforms
/// of 8x8, and 8x8 with transforms of 4x4.
const QUARTERS: [Kind; 4] = [
    Kind { mi_size: 9, tx_size: 3, skip: 0 },
    Kind { mi_size: 9, tx_size: 2, skip: 0 },
    Kind { mi_size: 6, tx_size: 1, skip: 0 },
    Kind { mi_size: 3, tx_size: 0, skip: 0 },
];

pub fn csv() {
    println!("positions,ours ns,Rust ns");
    for whole in WHOLE {
        point([whole; 4]);
    }
    let mut quarters = [QUARTERS[0]; 4];
    point(quarters);
    for finer in &QUARTERS[1..] {
        for quarter in 0..4 {
            quarters[quarter] = *finer;
            point(quarters);
        }
    }
}

/// All six passes of a superblock whose quarters are of these kinds.
fn point(quarters: [Kind; 4]) {
    let mi_cols = 8 * (SUPERBLOCKS + 2);
    let frame = Frame { sharpness: 0, bit_depth: DEPTH, sub_x: 1, sub_y: 1, mi_cols, mi_rows: 24 };
    let row = Row { frame, base: 8, levels: [32; 64], blocks: blocks(quarters, mi_cols) };
    let windows = [0, 1, 2].map(|plane| window(&frame, row.base, MARGIN, plane));
    let before = planes(&mut Random(51), &windows, DEPTH, "mixed");
    let passes = Superblocks::new(&row, 8..mi_cols - 8, windows, before);
    assert!(passes.change(), "nothing is filtered");
    let (positions, at_border) = passes.positions();
    assert_eq!(at_border, 0, "positions at the window's border");
    let positions = positions / SUPERBLOCKS;
    let (mut ours, mut rust) = <(Planes, Planes)>::default();
    let (a, b) = least(RUNS, || passes.unchecked(&mut ours), || passes.rust(&mut rust));
    passes.compare("ours", &ours);
    passes.compare("the Rust", &rust);
    let superblocks = SUPERBLOCKS as f64;
    println!("{positions},{:.0},{:.0}", a / superblocks, b / superblocks);
}

/// Eight rows of cells, every superblock alike.
fn blocks(quarters: [Kind; 4], mi_cols: usize) -> Blocks {
    let cell = |k: usize| {
        let (row, column) = (k / mi_cols, k % mi_cols % 8);
        let Kind { mi_size, tx_size, skip } = quarters[row / 4 * 2 + column / 4];
        Block { mi_size, tx_size, skip, ref_frame: 1, y_mode: 13, segment_id: 0 }
    };
    (0..8 * mi_cols).map(cell).collect()
}
