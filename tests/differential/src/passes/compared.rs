//! Ours against what the Rust leaves, pass by pass.

use super::Pass;
use crate::many::{self, summed};
use crate::positions::levelless;
use crate::random::Random;
use crate::returned::Returned;

/// Passes accepted, of them with a changed sample; passes refused for a cell without level.
pub type Counts = [usize; 3];

/// How many passes are compared.
pub fn count() -> usize {
    many::count("SPRINGSPADE_PASSES", 24_000)
}

/// What ours returned and left equals what the Rust leaves, all lent samples. Ours is refused exactly where the Rust
/// panics, which leaves none.
pub fn compare(pass: &Pass, ours: (Returned, Vec<u16>), expected: Option<Vec<u16>>) -> Counts {
    let (returned, after) = ours;
    let place = levelless(pass);
    assert_eq!(place.is_none(), expected.is_some(), "{}", pass.call());
    let number = if place.is_some() { 14 } else { 0 };
    let place = place.unwrap_or(0);
    assert_eq!(returned, Returned { number, place }, "{}", pass.call());
    let is_changed = expected.as_ref().is_some_and(|after| *after != pass.samples);
    let accepted = expected.is_some();
    let expected = expected.as_ref().unwrap_or(&pass.samples);
    assert!(after == *expected, "{}", pass.difference(&after, expected));
    [accepted.into(), is_changed.into(), (!accepted).into()]
}

/// Compares so many random passes. Says how many of `what` are equal.
pub fn compare_all(what: &str, passes: usize, seed: u64, one: fn(&mut Random) -> Counts) -> String {
    let [accepted, changed, refused] = summed(passes, seed, one);
    assert!(changed >= passes / 4, "{changed} of {passes} passes change a sample");
    assert!(refused >= passes / 50, "{refused} of {passes} passes have a cell without level");
    let accepted = format!("{accepted} {what} equal the Rust's, {changed} of them change samples");
    format!("{accepted}; {refused} are refused where it panics")
}
