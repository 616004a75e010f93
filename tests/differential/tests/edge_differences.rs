//! The edge facts' inputs of docs/DIFFERENCES.md: two readings of document 01, and where ours refuses.
#![cfg(oracle)]

use differential::{edges::FIRST, rust};
use springspade::{EdgeFacts, Position, Refused, edge};
use std::panic::catch_unwind;

/// Ours, which are the Rust's.
fn facts(at: &Position) -> EdgeFacts {
    let ours = edge(at).unwrap();
    assert_eq!(ours, rust::edge(at), "{at:?}");
    ours
}

/// Document 01 says "the last column"; columns off screen behind it have no transform edge either.
#[test]
fn behind_the_last_column() {
    let horizontal = Position { pass: 1, edge: 1, sub_x: 1, ..FIRST };
    for (i, column) in [(0, 0), (4, 1)] {
        let facts = facts(&Position { i, ..horizontal });
        assert_eq!((facts.x / 8, facts.is_tx_edge), (column, false));
    }
    assert!(facts(&Position { i: 4, mi_cols: 2, ..horizontal }).is_tx_edge);
}

/// "At the last column" and "last row" are the position's own, not the cell's that it reads.
#[test]
fn last_column_of_the_position() {
    let own = Position { edge: 1, sub_x: 1, mi_cols: 2, tx_size: 2, ..FIRST };
    let column = facts(&own);
    assert_eq!((column.x / 8, column.loop_col, column.filter_size), (1, 0, 1));
    let row = facts(&Position { pass: 1, sub_x: 0, sub_y: 1, mi_cols: 1, mi_rows: 2, ..own });
    assert_eq!((row.y / 8, row.loop_row, row.filter_size), (1, 0, 1));
    let wider =
        Position { edge: 5, sub_x: 1, sub_y: 1, mi_cols: 6, mi_rows: 2, tx_size: 3, ..FIRST };
    assert_eq!((facts(&wider).loop_col, facts(&wider).filter_size), (4, 1));
}

/// Ours is refused; the Rust's facts are returned.
fn refused(at: &Position, number: u32) -> EdgeFacts {
    assert_eq!(edge(at), Err(Refused { number, place: 0 }), "{at:?}");
    rust::edge(at)
}

#[test]
fn subsampling_2() {
    assert_eq!(refused(&Position { edge: 1, sub_x: 2, ..FIRST }, 3).x, 16);
    assert_eq!(refused(&Position { i: 1, sub_y: 2, ..FIRST }, 3).y, 4);
}

#[test]
fn frame_size() {
    assert!(!refused(&Position { edge: 1, mi_cols: 0, ..FIRST }, 4).on_screen);
    assert!(!refused(&Position { edge: 1, mi_rows: 0, ..FIRST }, 4).on_screen);
    assert!(refused(&Position { edge: 1, mi_cols: 8193, ..FIRST }, 4).on_screen);
    assert!(refused(&Position { edge: 1, mi_rows: 8193, ..FIRST }, 4).on_screen);
}

#[test]
fn superblock_1() {
    assert_eq!(refused(&Position { mi_row: 1, ..FIRST }, 5).y, 8);
    assert_eq!(refused(&Position { mi_col: 1, ..FIRST }, 10).x, 8);
}

#[test]
fn size_13() {
    let at = Position { mi_size: 13, ..FIRST };
    assert_eq!(edge(&at), Err(Refused { number: 8, place: 0 }));
    assert!(catch_unwind(|| rust::edge(&at)).is_err());
}

#[test]
fn transform_4() {
    let rust = refused(&Position { tx_size: 4, ..FIRST }, 8);
    assert_eq!((rust.is_tx_edge, rust.filter_size), (true, 2));
    assert!(!refused(&Position { edge: 8, tx_size: 4, ..FIRST }, 8).is_tx_edge);
}

/// As pass 1, but y 0 is on screen, and the last column and the last row are as the others.
#[test]
fn pass_2() {
    let top = FIRST;
    let column = Position { edge: 1, sub_x: 1, ..FIRST };
    let row = Position { sub_y: 1, tx_size: 2, ..FIRST };
    let horizontal = |at: Position| facts(&Position { pass: 1, ..at });
    let pass_2 = |at: Position| refused(&Position { pass: 2, ..at }, 9);
    assert_eq!((horizontal(top).apply_filter, pass_2(top).apply_filter), (false, true));
    assert_eq!((horizontal(column).is_tx_edge, pass_2(column).is_tx_edge), (false, true));
    assert_eq!((horizontal(row).filter_size, pass_2(row).filter_size), (1, 2));
    assert_eq!((pass_2(column).x, pass_2(column).y), (0, 4));
}

#[test]
fn beyond_the_grid() {
    assert_eq!(refused(&Position { edge: 16, ..FIRST }, 16).x, 64);
    assert_eq!(refused(&Position { i: 64, ..FIRST }, 16).y, 64);
}
