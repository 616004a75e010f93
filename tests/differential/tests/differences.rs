//! The inputs of docs/DIFFERENCES.md: where document 01 follows the Rust and not VP9-S, and where ours refuses.
#![cfg(oracle)]

use differential::lines::Line;
use differential::{cases::*, rust};
use oracle::superblock_loop_filter::hook_strength;
use springspade::{Refused, level_table, line, line_bytes, strength};

/// Entries 0 and 1 of segment 0, intra for mode types 0 and 1: ours, which are the Rust's.
fn intra(case: &Case) -> [u8; 2] {
    let ours = level_table(&case.loop_filter(), &case.segmentation()).unwrap();
    assert_eq!(ours, rust::level_table(case));
    [ours[0], ours[1]]
}

#[test]
fn updated_not_enabled() {
    assert_eq!(intra(&Case { level: 1, ..UPDATED_NOT_ENABLED }), [0, 0]);
}

#[test]
fn intra_of_mode_type_1() {
    let enabled = Case { level: 0, ..LEVEL_40 };
    assert_eq!(intra(&enabled), [1, 0]);
    assert_eq!(intra(&Case { delta_update: true, ..enabled }), [1, 0]);
}

#[test]
fn level_64() {
    let case = Case { level: 64, delta_enabled: false, ..LEVEL_40 };
    assert_eq!(rust::level_table(&case), [64; 64]);
    let ours = level_table(&case.loop_filter(), &case.segmentation());
    assert_eq!(ours, Err(Refused { number: 6, place: 0 }));
}

#[test]
fn strength_of_level_64() {
    let rust = hook_strength(64, 0);
    assert_eq!((rust.limit, rust.blimit, rust.thresh), (64, 196, 4));
    assert_eq!(strength(64, 0), Err(Refused { number: 6, place: 0 }));
}

#[test]
fn sharpness_8() {
    let rust = hook_strength(63, 8);
    assert_eq!((rust.limit, rust.blimit, rust.thresh), (1, 131, 3));
    assert_eq!(strength(63, 8), Err(Refused { number: 1, place: 0 }));
}

/// Ours is refused; the Rust's four ways all give the line that is returned.
fn line_refused(depth: u8, size: u8, taps: [u16; 16], number: u32) -> [u16; 16] {
    let case = Line { depth, size, strength: strength(0, 0).unwrap(), taps };
    let mut ours = taps;
    let refused = line(&mut ours, depth, size, case.strength);
    assert_eq!(refused, Err(Refused { number, place: 0 }));
    assert_eq!(ours, taps);
    let [rust, others @ ..] = rust::line(&case);
    assert_eq!(others, [rust; 3]);
    rust
}

/// All p 0, all q 2.
const STEP_2: [u16; 16] = [0, 0, 0, 0, 0, 0, 0, 0, 2, 2, 2, 2, 2, 2, 2, 2];

#[test]
fn line_of_size_3() {
    // As for size 2.
    assert_eq!(line_refused(8, 3, STEP_2, 15), [0, 0, 0, 0, 1, 1, 1, 1, 1, 1, 1, 2, 2, 2, 2, 2]);
}

#[test]
fn line_of_depth_9() {
    assert_eq!(line_refused(9, 0, STEP_2, 2), [0, 0, 0, 0, 0, 0, 1, 1, 1, 1, 2, 2, 2, 2, 2, 2]);
}

#[test]
fn line_of_sample_256() {
    let mut after = [256; 16];
    after[6..10].fill(255);
    assert_eq!(line_refused(8, 0, [256; 16], 13), after);
}

#[test]
fn line_of_bytes_at_depth_10() {
    let case = Line { depth: 10, size: 0, strength: strength(0, 0).unwrap(), taps: STEP_2 };
    let before = STEP_2.map(|tap| tap as u8);
    let mut ours = before;
    let refused = line_bytes(&mut ours, 10, 0, case.strength);
    assert_eq!(refused, Err(Refused { number: 2, place: 0 }));
    assert_eq!(ours, before);
    let after = [0, 0, 0, 0, 0, 0, 1, 1, 1, 1, 2, 2, 2, 2, 2, 2];
    assert_eq!(rust::line_over::<u8>(&case), [after; 4]);
}
