//! Ours against the Rust's pass, from cells and from mode info.
#![cfg(oracle)]

use differential::passes::Pass;
use differential::passes::compared::{compare, compare_all, count};
use differential::rows::Row;
use differential::{rust, say};

#[test]
fn passes_equal() {
    say(&compare_all("passes", count(), 20, |random| {
        let pass = Pass::random(random);
        compare(&pass, pass.ours(), rust::pass(&pass))
    }));
}

/// Our row and pass against the Rust's other way into the pass, which reads mode info itself.
#[test]
fn passes_of_rows_equal() {
    say(&compare_all("passes of mode info", count() / 2, 22, |random| {
        let row = Row::small(random);
        let pass = Pass::over(random, row.frame, row.base, row.words());
        let expected = rust::pass_lists(&row, &pass);
        // Both ways into the Rust's pass give the same.
        assert!(expected == rust::pass(&pass), "{}", pass.call());
        compare(&pass, pass.ours(), expected)
    }));
}
