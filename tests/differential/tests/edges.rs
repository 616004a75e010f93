//! Ours against the Rust's edge facts and filter size.
#![cfg(oracle)]

use differential::returned::{Returned, edge_returned};
use differential::{edges, many::count, random::Random, rust, say};
use springspade::{EdgeFacts, Position};

const NAMES: [&str; 10] = [
    "block edge",
    "transform edge",
    "32 edge",
    "on screen",
    "filtered",
    "size 0",
    "size 1",
    "size 2",
    "no transform edge in the last column",
    "size 2 made 1",
];

/// How often each of them holds.
type Counts = [usize; NAMES.len()];

#[test]
fn edges_equal() {
    let edges = count("SPRINGSPADE_EDGES", 4_000_000);
    let half = edges / 2;
    let (a, b) = std::thread::scope(|scope| {
        let a = scope.spawn(move || compare(half, 10));
        let b = scope.spawn(move || compare(edges - half, 11));
        (a.join().unwrap(), b.join().unwrap())
    });
    let counts: Counts = std::array::from_fn(|k| a[k] + b[k]);
    let rare = |&count: &usize| count < edges / 1000 || count > edges - edges / 1000;
    assert!(!counts.iter().any(rare), "rare: {counts:?}");
    let counts: Vec<String> =
        NAMES.iter().zip(counts).map(|(name, count)| format!("{name} {count}")).collect();
    say(&format!("{edges} edge facts equal the Rust's; {}", counts.join(", ")));
}

fn compare(edges: usize, seed: u64) -> Counts {
    let mut random = Random(seed);
    let mut counts = Counts::default();
    for _ in 0..edges {
        let at = edges::position(&mut random);
        let (returned, facts) = edge_returned(&at);
        assert_eq!(returned, Returned { number: 0, place: 0 }, "{at:?}");
        assert_eq!(facts, rust::edge(&at), "{at:?}");
        for (count, holds) in counts.iter_mut().zip(holding(&at, &facts)) {
            *count += usize::from(holds);
        }
    }
    counts
}

fn holding(at: &Position, facts: &EdgeFacts) -> [bool; NAMES.len()] {
    [
        facts.is_block_edge,
        facts.is_tx_edge,
        facts.is_32_edge,
        facts.on_screen,
        facts.apply_filter,
        facts.filter_size == 0,
        facts.filter_size == 1,
        facts.filter_size == 2,
        !facts.is_tx_edge && at.edge.is_multiple_of(1 << at.tx_size),
        facts.filter_size == 1 && at.tx_size >= 2,
    ]
}
