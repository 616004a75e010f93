//! All passes over a superblock row, and over one superblock, with eight rows above.

use crate::blocks::mixed;
use crate::planes::{planes, window};
use crate::row::row;
use crate::superblocks::{Superblocks, Way};
use differential::random::Random;
use differential::rows::Row;
use springspade::Frame;

const RUNS: usize = 200;

/// The rows of cells above the superblock row: it is the last whole one of 1080p.
const BASE: usize = 120;

/// How many columns of cells there are, and how many rows of samples below the superblock row are lent.
#[derive(Clone, Copy)]
struct Shape {
    name: &'static str,
    mi_cols: usize,
    below: usize,
}

/// As wide as 1080p. The last edges of the row read past its window.
const ROW: Shape = Shape { name: "row", mi_cols: 240, below: 0 };

/// The same, and so few positions are at the border that they do not count.
const INSIDE: Shape = Shape { name: "row, rows below", mi_cols: 240, below: 8 };

const ONE: Shape = Shape { name: "superblock", mi_cols: 8, below: 0 };

const DEPTHS: [u8; 3] = [8, 10, 12];

const KINDS: [&str; 3] = ["smooth", "noisy", "mixed"];

pub fn rows() {
    println!("ns of work and entry are per luma sample, all planes and both passes");
    [ROW, INSIDE, ONE].iter().for_each(say_positions);
    for depth in DEPTHS {
        for kind in KINDS {
            timed("work", &ROW, depth, kind, Superblocks::unchecked);
        }
    }
    for depth in DEPTHS {
        timed("work", &INSIDE, depth, "mixed", Superblocks::unchecked);
    }
    for kind in KINDS {
        timed("bytes, work", &ROW, 8, kind, Superblocks::unchecked_bytes);
    }
    timed("bytes, work", &INSIDE, 8, "mixed", Superblocks::unchecked_bytes);
    both_over_bytes(&INSIDE, "mixed");
    deciding("work", &ROW, Superblocks::unchecked);
    deciding("bytes, work", &ROW, Superblocks::unchecked_bytes);
    println!(
        "the entry tests all samples of its window at each call, so those of a row many times"
    );
    for shape in [ROW, ONE] {
        for depth in DEPTHS {
            timed("entry", &shape, depth, "mixed", Superblocks::checked);
        }
    }
    println!("over bytes it tests the cells of the row alone");
    for shape in [ROW, ONE] {
        timed("bytes, entry", &shape, 8, "mixed", Superblocks::checked_bytes);
    }
    println!("by cell records the entry also packs the cells of the row at each call");
    for shape in [ROW, ONE] {
        timed("records", &shape, 8, "mixed", Superblocks::by_records);
    }
}

/// A row of the table for one way of ours.
fn timed<S: Copy + Into<u16>>(what: &str, shape: &Shape, depth: u8, kind: &str, way: Way<S>) {
    let name = format!("{what}, {}, depth {depth}, {kind}", shape.name);
    let passes = superblocks(shape, depth, kind);
    beside_rust(&name, shape, &passes, way, Superblocks::rust::<u16>);
}

/// The same at depth 8 where every level is 0: all is decided, and nothing is filtered.
fn deciding<S: Copy + Into<u16>>(what: &str, shape: &Shape, way: Way<S>) {
    let name = format!("{what}, {}, level 0: deciding", shape.name);
    let passes = at_levels(shape, 8, "mixed", |_| 0);
    beside_rust(&name, shape, &passes, way, Superblocks::rust::<u16>);
}

/// The work where the Rust filters bytes too; elsewhere it filters the same samples as u16.
fn both_over_bytes(shape: &Shape, kind: &str) {
    let name = format!("bytes, work, {}, {kind}, both", shape.name);
    let passes = superblocks(shape, 8, kind);
    beside_rust(&name, shape, &passes, Superblocks::unchecked_bytes, Superblocks::rust::<u8>);
}

fn beside_rust<S: Copy + Into<u16>, R: Copy + Into<u16>>(
    name: &str,
    shape: &Shape,
    passes: &Superblocks,
    ours: Way<S>,
    rust: Way<R>,
) {
    let mut our_planes = [const { Vec::new() }; 3];
    let mut rust_planes = [const { Vec::new() }; 3];
    let run_ours = || ours(passes, &mut our_planes);
    row(name, RUNS, luma(shape), run_ours, || rust(passes, &mut rust_planes));
    passes.compare(name, &our_planes);
    passes.compare(name, &rust_planes);
}

fn say_positions(shape: &Shape) {
    let (positions, at_border) = superblocks(shape, 8, "mixed").positions();
    let each = positions as f64 / luma(shape) as f64;
    let share = 100.0 * at_border as f64 / positions as f64;
    print!("{}: {each:.2} filtered positions a luma sample, ", shape.name);
    println!("{share:.1} % of them at the border");
}

/// The luma samples of the superblock row.
fn luma(shape: &Shape) -> usize {
    64 * 8 * shape.mi_cols
}

fn superblocks(shape: &Shape, depth: u8, kind: &str) -> Superblocks {
    let passes = at_levels(shape, depth, kind, |random| random.between(16, 40) as u8);
    assert!(passes.change(), "nothing is filtered");
    passes
}

/// The superblocks of a shape, with such levels.
fn at_levels(
    shape: &Shape,
    depth: u8,
    kind: &str,
    level: impl Fn(&mut Random) -> u8,
) -> Superblocks {
    let &Shape { mi_cols, below, .. } = shape;
    let frame = Frame { sharpness: 0, bit_depth: depth, sub_x: 1, sub_y: 1, mi_cols, mi_rows: 135 };
    let mut random = Random(34);
    let levels = [(); 64].map(|()| level(&mut random));
    let row = Row { frame, base: BASE, levels, blocks: mixed(&mut random, mi_cols) };
    let windows = [0, 1, 2].map(|plane| window(&frame, BASE, below, plane));
    let before = planes(&mut random, &windows, depth, kind);
    Superblocks::new(&row, 0..mi_cols, windows, before)
}
