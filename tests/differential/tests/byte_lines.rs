//! The line over bytes against the Rust's lane kernel, over bytes and over the same samples as u16, line by line.
#![cfg(oracle)]

use differential::lines::{Line, compare_all, taps};
use differential::random::Random;
use differential::{rust, say};
use springspade::{Strength, line_bytes};

/// Stands around the line: before what is lent, in it behind the line, and behind it.
const GUARD: [u8; 64] = [0xa5; 64];

/// Filters the line from any address on, with some bytes lent behind it, and compares all bytes.
fn compare(random: &mut Random, case: &Line) {
    let [first, behind] = [(); 2].map(|()| random.between(1, 16) as usize);
    let line = first..first + 16;
    let mut memory = GUARD;
    memory[line.clone()].copy_from_slice(&case.taps.map(|tap| tap as u8));
    let lent = &mut memory[first..line.end + behind - 1];
    assert_eq!(line_bytes(lent, case.depth, case.size, case.strength), Ok(()), "{case:?}");
    let after: [u8; 16] = memory[line.clone()].try_into().unwrap();
    assert_eq!([after; 4], rust::line_over(case), "{case:?}");
    assert_eq!([after.map(u16::from); 4], rust::line(case), "{case:?}");
    memory[line].fill(GUARD[0]);
    assert_eq!(memory, GUARD, "{case:?}");
}

#[test]
fn lines_of_bytes_equal() {
    say(&compare_all("lines of bytes", 60, |random| {
        let case = Line::at_depth(random, 8);
        compare(random, &case);
        case
    }));
}

/// Every limit, blimit and thresh at every size, each with any others.
#[test]
fn every_strength_equal() {
    let mut random = Random(62);
    for byte in 0..=255 {
        for k in 0..3 {
            for size in 0..=2 {
                for _ in 0..32 {
                    let mut bytes = random.number().to_le_bytes();
                    bytes[k] = byte;
                    let [limit, blimit, thresh, ..] = bytes;
                    let strength = Strength { limit, blimit, thresh };
                    let taps = taps(&mut random, 8, strength);
                    compare(&mut random, &Line { depth: 8, size, strength, taps });
                }
            }
        }
    }
}
