//! The pass over bytes against the Rust's and against ours over u16, from cells and from mode info.
#![cfg(oracle)]

use differential::passes::Pass;
use differential::passes::compared::{compare, compare_all, count};
use differential::random::Random;
use differential::returned::Returned;
use differential::rows::Row;
use differential::{rust, say};

/// What ours returns and leaves over bytes, with samples and cells at any address. It is what the pass over u16 returns
/// and leaves, and where it is accepted the pass without its tests leaves the same.
fn by_bytes(random: &mut Random, pass: &Pass) -> (Returned, Vec<u16>) {
    let [skew, before] = [(); 2].map(|()| random.between(0, 15) as usize);
    let cells = [vec![0xff; before], pass.cell_bytes()].concat();
    let (returned, after) = pass.ours_by_bytes(&cells[before..], skew);
    let (over_u16, after_u16) = pass.ours();
    assert_eq!(returned, over_u16, "{}", pass.call());
    assert!(after == after_u16, "{}", pass.difference(&after, &after_u16));
    if let Some(unchecked) = pass.ours_by_bytes_unchecked(skew) {
        assert!(after == unchecked, "{}", pass.difference(&after, &unchecked));
    }
    (returned, after)
}

#[test]
fn passes_over_bytes_equal() {
    say(&compare_all("passes over bytes", count(), 63, |random| {
        let pass = Pass::random_bytes(random);
        let expected = rust::pass(&pass);
        // The Rust over bytes gives the same as over u16.
        assert!(expected == rust::pass_bytes(&pass), "{}", pass.call());
        compare(&pass, by_bytes(random, &pass), expected)
    }));
}

#[test]
fn passes_of_rows_over_bytes_equal() {
    say(&compare_all("passes of mode info over bytes", count() / 2, 65, |random| {
        let mut row = Row::small(random);
        row.frame.bit_depth = 8;
        let pass = Pass::over(random, row.frame, row.base, row.words()).of_bytes();
        compare(&pass, by_bytes(random, &pass), rust::pass_lists(&row, &pass))
    }));
}
