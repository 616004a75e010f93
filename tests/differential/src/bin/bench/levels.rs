//! Level tables and strengths.

use crate::row::{nanoseconds, row};
use differential::returned::{level_table_into, strength_returned};
use differential::{cases::*, rust};
use oracle::adaptive_filter_strength::FilterStrength;
use oracle::superblock_loop_filter::hook_strength;

use std::hint::black_box;

const RUNS: usize = 2_000;

pub fn rows() {
    let plain = Case { delta_enabled: false, ..LEVEL_40 };
    let updated = Case { delta_update: true, present: [true; 6], ..LEVEL_40 };
    let absolute = Case { feature_enabled: [[true; 4]; 8], ..SEGMENT_20 };
    let added = Case { abs_or_delta_update: false, ..absolute };
    table("level table, deltas off", &plain);
    table("level table, deltas enabled", &LEVEL_40);
    table("level table, deltas enabled and updated", &updated);
    table("level table, absolute segments", &absolute);
    table("level table, segments added", &added);
    // Ours is always a call; the Rust's may be put in line.
    let ours = || all(strength_returned);
    row("strength, the Rust called", RUNS, 512, ours, || all(called));
    row("strength, the Rust in line", RUNS, 512, ours, || all(hook_strength));
}

fn table(name: &str, case: &Case) {
    const CALLS: usize = 200;
    let lists = case.lists();
    let mut levels = [0; 64];
    let mut ours = || {
        for _ in 0..CALLS {
            black_box(level_table_into(black_box(&lists), black_box(&mut levels)));
        }
    };
    let (lf, seg) = rust::params(case);
    let rust = || {
        for _ in 0..CALLS {
            black_box(rust::lookup(black_box(&lf), black_box(&seg)));
        }
    };
    row(name, RUNS, CALLS, || nanoseconds(&mut ours), || nanoseconds(rust));
}

#[inline(never)]
fn called(lvl: u8, sharpness: u8) -> FilterStrength {
    hook_strength(lvl, sharpness)
}

fn all<T>(strength: impl Fn(u8, u8) -> T) -> f64 {
    nanoseconds(|| {
        for sharpness in 0..8 {
            for lvl in 0..64 {
                black_box(strength(black_box(lvl), black_box(sharpness)));
            }
        }
    })
}
