//! The random sheets reach the cases that they are made for.

use differential::random::Random;
use differential::say;
use differential::sheets::Sheet;
use differential::sheets::reached::{Reached, count};

const SHEETS: usize = 6_000;

/// Subsamplings, planes and passes.
const KINDS: usize = 4 * 3 * 2;

/// Runs of 4, 8, 12 and 16 positions, of each size.
const LENGTHS: usize = 4 * 3;

#[test]
fn random_sheets_reach() {
    let mut random = Random(44);
    let mut reached = Reached::default();
    for _ in 0..SHEETS {
        count(&mut reached, &Sheet::random(&mut random).bytes());
    }
    let names = &reached.0;
    for (name, count) in names {
        assert!(*count >= 5, "{name}: {count} times in {SHEETS} sheets");
    }
    let with = |word: &str| names.keys().filter(|name| name.starts_with(word)).count();
    assert_eq!(with("runs, subsampling"), KINDS, "{names:?}");
    assert_eq!(with("run of"), LENGTHS, "{names:?}");
    let counts: Vec<String> = names
        .iter()
        .filter(|(name, _)| !name.contains("subsampling"))
        .map(|(name, count)| format!("{name} {count}"))
        .collect();
    say(&format!("{SHEETS} random sheets reach: {}", counts.join("; ")));
}
