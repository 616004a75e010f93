//! edges.bin: by the Rust, of libvpx's positions among others, and refusals of the document.

use crate::edges::{FIRST, LAST, position};
use crate::random::Random;
use crate::{libvpx, rust};
use springspade::{EdgeFacts, Position};
use std::collections::HashSet;
use std::{iter, path::Path};

pub fn contents(folder: &Path) -> Vec<u8> {
    let mut random = Random(14);
    let mut accepted = document();
    for filtered in [false, true] {
        let positions = iter::repeat_with(|| position(&mut random));
        let chosen = positions.filter(|at| rust::edge(at).apply_filter == filtered);
        accepted.extend(chosen.take(350));
    }
    accepted.extend(frames(folder, &mut random));
    let accepted: Vec<_> = accepted.iter().map(|at| (*at, rust::edge(at))).collect();
    let kinds: HashSet<_> = accepted
        .iter()
        .map(|(at, facts)| (at.pass, at.sub_x, at.sub_y, at.tx_size, facts.apply_filter))
        .collect();
    assert_eq!(kinds.len(), 2 * 4 * 4 * 2, "filtered or not, at each subsampling and transform");
    let accepted = accepted.iter().map(|(at, facts)| record(at, 0, facts));
    let refused = refused().map(|(at, number)| record(&at, number, &EdgeFacts::default()));
    accepted.chain(refused).flatten().collect()
}

/// Case S at its edges, and the last columns and rows whose reading is open.
fn document() -> Vec<Position> {
    let case_s = Position { mi_cols: 2, mi_size: 3, tx_size: 1, ..FIRST };
    let column = Position { pass: 1, edge: 1, sub_x: 1, ..FIRST };
    let size = Position { edge: 1, sub_x: 1, mi_cols: 2, tx_size: 2, ..FIRST };
    let mut positions = Vec::new();
    for (edge, i) in [(0, 0), (1, 0), (2, 0), (2, 7), (2, 8), (3, 0), (4, 0), (15, 63)] {
        positions.push(Position { edge, i, ..case_s });
    }
    positions.extend([0, 3, 4].map(|i| Position { i, ..column }));
    positions.extend([1, 2].map(|mi_cols| Position { mi_cols, i: 4, ..column }));
    positions.extend([0, 1, 2].map(|edge| Position { edge, ..size }));
    positions.push(Position { pass: 1, sub_x: 0, sub_y: 1, mi_cols: 1, mi_rows: 2, ..size });
    positions
}

/// Five of each frame's, as libvpx filters them.
fn frames(folder: &Path, random: &mut Random) -> Vec<Position> {
    let mut positions = Vec::new();
    for frame in libvpx::frames(folder) {
        for _ in 0..5 {
            let (plane, pass) = (random.between(0, 2) as u8, random.between(0, 1) as u8);
            let calls: Vec<_> = frame.calls(plane, pass).collect();
            let (x, y, call) = random.one_of(&calls);
            let (at, cell) = frame.position(plane, pass, x, y);
            let rust = rust::edge(&at);
            let is_filtered = rust.apply_filter && cell.level > 0;
            let expected = if is_filtered { rust.filter_size * 64 + cell.level } else { 0 };
            assert_eq!(call, expected, "{}, plane {plane}, {at:?}", frame.name);
            positions.push(at);
        }
    }
    positions
}

/// Each with its number.
fn refused() -> [(Position, u8); 52] {
    let vertical = Position { pass: 0, ..LAST };
    let luma = Position { sub_x: 0, sub_y: 0, ..LAST };
    [
        (Position { sub_x: 2, ..LAST }, 3),
        (Position { sub_y: 2, ..LAST }, 3),
        (Position { sub_x: 255, sub_y: 255, ..LAST }, 3),
        (Position { mi_cols: 0, ..LAST }, 4),
        (Position { mi_rows: 0, ..LAST }, 4),
        (Position { mi_cols: 8193, ..LAST }, 4),
        (Position { mi_rows: 8193, ..LAST }, 4),
        (Position { mi_rows: 65535, ..LAST }, 4),
        (Position { mi_row: 1, ..LAST }, 5),
        (Position { mi_row: 4, ..LAST }, 5),
        (Position { mi_row: 7, ..LAST }, 5),
        (Position { mi_row: 16, ..LAST }, 5),
        (Position { mi_rows: 8, ..LAST }, 5),
        (Position { mi_row: 65528, ..LAST }, 5),
        (Position { mi_size: 13, ..LAST }, 8),
        (Position { mi_size: 255, ..LAST }, 8),
        (Position { tx_size: 4, ..LAST }, 8),
        (Position { tx_size: 255, ..LAST }, 8),
        (Position { skip: 2, ..LAST }, 8),
        (Position { skip: 255, ..LAST }, 8),
        (Position { pass: 2, ..LAST }, 9),
        (Position { pass: 255, ..LAST }, 9),
        (Position { mi_col: 1, ..LAST }, 10),
        (Position { mi_col: 4, ..LAST }, 10),
        (Position { mi_col: 15, ..LAST }, 10),
        (Position { mi_col: 24, ..LAST }, 10),
        (Position { mi_cols: 16, ..LAST }, 10),
        (Position { mi_col: 65528, ..LAST }, 10),
        (Position { edge: 8, ..LAST }, 16),
        (Position { i: 32, ..LAST }, 16),
        (Position { edge: 8, ..vertical }, 16),
        (Position { i: 32, ..vertical }, 16),
        (Position { edge: 16, ..luma }, 16),
        (Position { i: 64, ..luma }, 16),
        (Position { edge: 16, sub_y: 0, ..LAST }, 16),
        (Position { edge: 8, sub_x: 0, ..LAST }, 16),
        (Position { i: 64, sub_x: 0, ..LAST }, 16),
        (Position { i: 32, sub_y: 0, ..LAST }, 16),
        (Position { edge: 16, sub_x: 0, ..vertical }, 16),
        (Position { edge: 8, sub_y: 0, ..vertical }, 16),
        (Position { i: 64, sub_y: 0, ..vertical }, 16),
        (Position { i: 32, sub_x: 0, ..vertical }, 16),
        (Position { edge: 65535, ..luma }, 16),
        (Position { i: 65535, ..luma }, 16),
        (Position { sub_x: 2, mi_cols: 0, ..LAST }, 3),
        (Position { mi_rows: 0, mi_row: 1, ..LAST }, 4),
        (Position { mi_row: 1, tx_size: 4, ..LAST }, 5),
        (Position { skip: 2, pass: 2, ..LAST }, 8),
        (Position { pass: 2, mi_col: 1, ..LAST }, 9),
        (Position { mi_col: 1, edge: 8, ..LAST }, 10),
        (Position { mi_row: 1, mi_col: 1, ..LAST }, 5),
        (Position { mi_size: 13, edge: 16, ..LAST }, 8),
    ]
}

fn record(at: &Position, number: u8, facts: &EdgeFacts) -> Vec<u8> {
    let mut bytes = vec![at.pass, at.sub_x, at.sub_y, at.mi_size, at.tx_size, at.skip, number, 0];
    let numbers = [at.mi_row, at.mi_col, at.edge, at.i, at.mi_cols, at.mi_rows];
    bytes.extend(numbers.iter().flat_map(|&n| u16::try_from(n).unwrap().to_le_bytes()));
    bytes.extend(at.ref_frame.to_le_bytes());
    let places = [facts.x, facts.y, facts.loop_col, facts.loop_row];
    bytes.extend(places.iter().flat_map(|&n| u32::try_from(n).unwrap().to_le_bytes()));
    let flags = [
        facts.is_block_edge,
        facts.is_tx_edge,
        facts.is_32_edge,
        facts.on_screen,
        facts.apply_filter,
    ];
    bytes.extend(flags.map(u8::from));
    bytes.push(facts.filter_size);
    bytes
}
