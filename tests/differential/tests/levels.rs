//! Ours against the Rust.
#![cfg(oracle)]

use differential::returned::{Returned, level_table_into};
use differential::{cases::Case, many::count, random::Random, rust, say};
use oracle::adaptive_filter_strength::mode_to_mode_type;
use oracle::superblock_loop_filter::hook_strength;
use springspade::{Strength, level_table, mode_type, strength};

#[test]
fn strengths_equal() {
    for sharpness in 0..=7 {
        for lvl in 0..=63 {
            let rust = hook_strength(lvl, sharpness);
            let rust = Strength { limit: rust.limit, blimit: rust.blimit, thresh: rust.thresh };
            assert_eq!(strength(lvl, sharpness), Ok(rust), "level {lvl}, sharpness {sharpness}");
        }
    }
}

#[test]
fn mode_types_equal() {
    for mode in 0..=255 {
        assert_eq!(mode_type(mode), mode_to_mode_type(mode), "mode {mode}");
    }
}

/// Tables of each kind: segments inactive, absolute, added; not enabled or enabled, updated or not.
type Kinds = [[usize; 4]; 3];

#[test]
fn level_tables_equal() {
    let tables = count("SPRINGSPADE_TABLES", 1_000_000);
    let half = tables / 2;
    let (a, b) = std::thread::scope(|scope| {
        let a = scope.spawn(move || compare(half, 2));
        let b = scope.spawn(move || compare(tables - half, 3));
        (a.join().unwrap(), b.join().unwrap())
    });
    let kinds: Vec<usize> =
        a.as_flattened().iter().zip(b.as_flattened()).map(|(a, b)| a + b).collect();
    assert_eq!(kinds.iter().sum::<usize>(), tables);
    assert!(kinds.iter().all(|&count| count > 0), "a kind did not occur: {kinds:?}");
    say(&format!("{tables} level tables equal the Rust's; of each kind: {kinds:?}"));
}

fn compare(tables: usize, seed: u64) -> Kinds {
    let mut random = Random(seed);
    let mut kinds = Kinds::default();
    for _ in 0..tables {
        let case = Case::random(&mut random);
        let expected = rust::level_table(&case);
        let mut levels = [200; 80];
        let returned = level_table_into(&case.lists(), &mut levels);
        assert_eq!(returned, Returned { number: 0, place: 0 }, "{case:?}");
        assert_eq!(levels[..64], expected, "{case:?}");
        assert_eq!(levels[64..], [200; 16], "{case:?}");
        let safe = level_table(&case.loop_filter(), &case.segmentation());
        assert_eq!(safe, Ok(expected), "{case:?}");
        let segments = match (case.segments_active(), case.abs_or_delta_update) {
            (false, _) => 0,
            (true, true) => 1,
            (true, false) => 2,
        };
        kinds[segments][2 * case.delta_enabled as usize + case.delta_update as usize] += 1;
    }
    kinds
}
