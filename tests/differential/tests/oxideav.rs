//! The adapter for the Rust decoder against the Rust that it replaces.
#![cfg(oracle)]

#[path = "../../../rust/springspade/examples/oxideav.rs"]
mod oxideav;

use differential::passes::Pass;
use differential::random::Random;
use differential::rows::Row;
use differential::{rust, say};
use oxideav::{LfRowCells, PlaneWindow, superblock_loop_filter_cells};
use springspade::{Refused, Superblock, Window};

const PASSES: usize = 4_000;

/// The adapter's answer, and the samples after it.
fn adapted(row: &Row, pass: &Pass) -> (Result<(), Refused>, Vec<u16>) {
    let base = row.base as u32;
    let cells = rust::with_frame(row, |frame| LfRowCells::new(frame, base)).unwrap();
    let Window { width, height, stride, y_origin } = pass.window;
    let Superblock { mi_row, mi_col, plane, pass: number } = pass.at;
    let mut samples = pass.samples.clone();
    let mut window = PlaneWindow { data: &mut samples, stride, width, height, y_origin };
    let (row, col) = (mi_row as u32, mi_col as u32);
    (superblock_loop_filter_cells(&mut window, &cells, plane, number, row, col), samples)
}

#[test]
fn passes_equal() {
    let mut random = Random(16);
    let mut refused = 0;
    for _ in 0..PASSES {
        let row = Row::small(&mut random);
        let mut words = vec![0; row.cells()];
        row.ours(&mut words).accepted().unwrap();
        let pass = Pass::over(&mut random, row.frame, row.base, words);
        let (answer, samples) = adapted(&row, &pass);
        match rust::pass_lists(&row, &pass) {
            Some(expected) => {
                assert_eq!(answer, Ok(()), "{}", pass.call());
                assert!(samples == expected, "{}", pass.difference(&samples, &expected));
            }
            None => {
                assert_eq!(answer.map_err(|refused| refused.number), Err(14), "{}", pass.call());
                refused += 1;
            }
        }
    }
    assert!(refused < PASSES / 2, "{refused} passes are refused");
    let equal = PASSES - refused;
    say(&format!(
        "{equal} passes through the adapter equal the Rust's; {refused} are refused where it panics"
    ));
}
