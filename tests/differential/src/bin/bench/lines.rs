//! Lines: ours one at a time, over u16 and over bytes, the Rust's lane kernel as the pass calls it for a vertical edge.

use crate::row::{nanoseconds, row};
use differential::lines::{Arm, Line, taps};
use differential::random::Random;
use oracle::superblock_loop_filter::hook_lanes;
use springspade::{Refused, Strength, line, line_bytes};
use std::hint::black_box;

const RUNS: usize = 300;

/// So many that the branch predictor cannot learn them.
const LINES: usize = 16_384;

/// Positions of an edge that the Rust filters at once.
const LANES: usize = 16;

const MIXED: [Arm; 4] = [Arm::None, Arm::Narrow, Arm::Six, Arm::Fourteen];

pub fn rows() {
    for depth in [8, 12] {
        for size in 0..=2 {
            let name = format!("line, depth {depth}, size {size}, mixed");
            lines(&name, depth, size, &MIXED, LANES, line);
        }
    }
    for (arm, what) in MIXED.iter().zip(["none filtered", "narrow", "six", "fourteen"]) {
        lines(&format!("line, depth 8, size 2, {what}"), 8, 2, &[*arm], LANES, line);
    }
    lines("line, depth 8, size 2, mixed, one lane", 8, 2, &MIXED, 1, line);
    let over_bytes =
        |taps: &mut [u8; 16], depth, size, strength| line_bytes(taps, depth, size, strength);
    for size in 0..=2 {
        lines(&format!("bytes, line, size {size}, mixed"), 8, size, &MIXED, LANES, over_bytes);
    }
}

/// A row of lines made for these arms. The Rust takes `lanes` lines at once.
fn lines<S: Copy + TryFrom<u16> + Into<u16>>(
    name: &str,
    depth: u8,
    size: u8,
    arms: &[Arm],
    lanes: usize,
    line: impl Fn(&mut [S; 16], u8, u8, Strength) -> Result<(), Refused>,
) {
    let strength = springspade::strength(32, 0).unwrap();
    let before = samples(depth, strength, arms);
    let own: Vec<S> = before.iter().filter_map(|&sample| sample.try_into().ok()).collect();
    let (mut ours, mut rust) = (own.clone(), before.clone());
    let (depth, size, lanes) = black_box((depth, size, lanes));
    let run_ours = || {
        ours.copy_from_slice(&own);
        nanoseconds(|| {
            for taps in ours.as_chunks_mut().0 {
                let _ = black_box(line(taps, depth, size, strength));
            }
        })
    };
    let run_rust = || {
        rust.copy_from_slice(&before);
        let Strength { limit, blimit, thresh } = strength;
        nanoseconds(|| {
            for q0 in (8..16 * LINES).step_by(16 * lanes) {
                hook_lanes(&mut rust, q0, 1, 16, lanes, limit, blimit, thresh, size, depth);
            }
        })
    };
    row(name, RUNS, LINES, run_ours, run_rust);
    let ours: Vec<u16> = ours.into_iter().map(Into::into).collect();
    assert!(ours == rust, "{name}: ours and the Rust's samples differ");
}

/// The lines one behind the other, their arms in random order.
fn samples(depth: u8, strength: Strength, arms: &[Arm]) -> Vec<u16> {
    let mut random = Random(7);
    let line = |_| {
        let arm = random.one_of(arms);
        made_for(arm, &mut random, depth, strength)
    };
    (0..LINES).flat_map(line).collect()
}

/// A line that gets this arm at size 2.
fn made_for(arm: Arm, random: &mut Random, depth: u8, strength: Strength) -> [u16; 16] {
    loop {
        let taps = taps(random, depth, strength);
        if (Line { depth, size: 2, strength, taps }).arm() == arm {
            return taps;
        }
    }
}
