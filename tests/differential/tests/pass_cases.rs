//! The random passes reach the cases that they are made for, over u16 and over bytes.

use differential::passes::Pass;
use differential::passes::reached::{Reached, count};
use differential::random::Random;
use differential::say;

const PASSES: usize = 6_000;

/// The arms of each size at one depth in both passes: two of size 0, three of size 1, four of size 2.
const ARMS: usize = 2 * (2 + 3 + 4);

/// Subsamplings, planes and passes at one depth.
const KINDS: usize = 4 * 3 * 2;

/// Random passes of so many depths.
fn reach(what: &str, depths: usize, seed: u64, random_pass: fn(&mut Random) -> Pass) {
    let mut random = Random(seed);
    let mut reached = Reached::default();
    for _ in 0..PASSES {
        count(&mut reached, &random_pass(&mut random));
    }
    let names = &reached.0;
    for (name, count) in names {
        let least = if name.contains("above 60,000") { 1 } else { 10 };
        assert!(*count >= least, "{name}: {count} times in {PASSES} {what}");
    }
    let with = |word: &str| names.keys().filter(|name| name.contains(word)).count();
    assert_eq!(with(", size "), depths * ARMS, "{names:?}");
    assert_eq!(with("changed, subsampling"), depths * KINDS, "{names:?}");
    let counts: Vec<String> = names
        .iter()
        .filter(|(name, _)| !name.contains("depth"))
        .map(|(name, count)| format!("{name} {count}"))
        .collect();
    say(&format!("{PASSES} {what} reach: {}", counts.join("; ")));
}

#[test]
fn random_passes_reach() {
    reach("random passes", 3, 24, Pass::random);
}

#[test]
fn random_passes_over_bytes_reach() {
    reach("random passes over bytes", 1, 67, Pass::random_bytes);
}
