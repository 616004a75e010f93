//! The test of a window's samples: the entry, where it has nothing to filter.

use crate::row::{alone, nanoseconds};
use differential::passes::Pass;
use differential::positions::decided;
use springspade::{Frame, Superblock, Window};
use std::hint::black_box;

const RUNS: usize = 2_000;

/// As wide as 1080p, a superblock row with the eight rows above.
const WINDOW: Window = Window { width: 1_920, height: 72, stride: 1_920, y_origin: 0 };

const AT: Superblock = Superblock { mi_row: 0, mi_col: 0, plane: 0, pass: 0 };

/// Level 32, 8 by 8 with a transform of 8 by 8: in a frame of one cell its only edge is the frame's own,
/// so that no position is decided.
const CELL: u32 = 0x0056_0000;

pub fn rows() {
    println!(
        "ns of a range test are per sample of a window of {} by {}",
        WINDOW.width, WINDOW.height
    );
    for depth in [8, 10, 12] {
        range(&format!("range test, a sample, depth {depth}"), depth);
    }
}

fn range(name: &str, depth: u8) {
    let frame =
        Frame { sharpness: 0, bit_depth: depth, sub_x: 1, sub_y: 1, mi_cols: 1, mi_rows: 1 };
    // The greatest sample that is in range.
    let mut samples = vec![(1 << depth) - 1; WINDOW.width * WINDOW.height];
    let calls = samples.len();
    let nothing = Pass { frame, at: AT, cells: vec![CELL], window: WINDOW, samples: Vec::new() };
    assert!(decided(&nothing).is_empty(), "{name}: there is something to filter");
    let run = || {
        nanoseconds(|| {
            let (samples, frame) = black_box((&mut samples, &frame));
            black_box(springspade::pass(samples, &WINDOW, &[CELL], frame, &AT)).unwrap();
        })
    };
    alone(name, RUNS, calls, run);
    // The test reaches the last sample.
    samples[calls - 1] += 1;
    let refused = springspade::pass(&mut samples, &WINDOW, &[CELL], &frame, &AT).unwrap_err();
    assert_eq!((refused.number, refused.place as usize), (13, calls - 1), "{name}");
}
