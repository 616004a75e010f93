//! byte_lines.bin: lines over bytes: by libvpx and by the Rust, and refusals of the document.

use super::{line_numbers, padded, step};
use crate::libvpx::{self, Filtered};
use crate::lines::Line;
use crate::random::Random;
use crate::rust;
use std::collections::HashSet;
use std::{iter, path::Path};

/// A record has room for so many bytes; behind those that are lent they are 0.
const BYTES: usize = 24;

/// So many random lines.
const RANDOM: usize = 200;

pub fn contents(folder: &Path) -> Vec<u8> {
    let lines = libvpx::lines(folder).into_iter().filter(|f| f.line.depth == 8).step_by(40);
    let mut random = Random(95);
    let random = iter::repeat_with(|| Line::random(&mut random)).filter(|line| line.depth == 8);
    let random = random.take(RANDOM).map(|line| Filtered { line, after: rust::line(&line)[0] });
    let filtered: Vec<_> = lines.chain(random).collect();
    let kinds: HashSet<_> = filtered.iter().map(|f| (f.line.size, f.line.arm())).collect();
    assert_eq!(kinds.len(), 2 + 3 + 4, "the arms of sizes 0, 1 and 2");
    // Most are lent some bytes behind the 16.
    let behind = |k: usize| 16 + k % (BYTES - 15);
    let accepted =
        filtered.iter().enumerate().map(|(k, f)| record(&f.line, 0, behind(k), &f.after));
    let refused = refused().map(|(line, lent, number)| record(&line, number, lent, &line.taps));
    accepted.chain(refused).flatten().collect()
}

/// Each with how many bytes are lent, and its number. None has a place.
fn refused() -> [(Line, usize, u8); 13] {
    [
        (step(7, 0), 16, 2),
        (step(9, 0), 16, 2),
        (step(10, 0), 16, 2),
        (step(12, 2), 24, 2),
        (step(10, 1), 15, 2),
        (step(12, 3), 0, 2),
        (step(8, 0), 15, 7),
        (step(8, 2), 1, 7),
        (step(8, 1), 0, 7),
        (step(8, 3), 15, 7),
        (step(8, 3), 16, 15),
        (step(8, 3), 24, 15),
        (step(8, 255), 17, 15),
    ]
}

/// The bytes behind the 16 are the same before and after.
fn record(line: &Line, refusal: u8, lent: usize, after: &[u16; 16]) -> Vec<u8> {
    let mut bytes = line_numbers(line, refusal, 0, lent as u8).to_vec();
    for taps in [&line.taps, after] {
        let taps = taps.iter().map(|&sample| u8::try_from(sample).unwrap());
        let all: Vec<u8> = taps.chain((240..).take(BYTES - 16)).collect();
        bytes.extend(padded::<u8, BYTES>(&all[..lent]));
    }
    bytes
}
