//! Ours against the Rust's lane kernel, line by line.
#![cfg(oracle)]

use differential::lines::{Line, compare_all};
use differential::{rust, say};
use springspade::line;

#[test]
fn lines_equal() {
    say(&compare_all("lines", 5, |random| {
        let case = Line::random(random);
        // A sample before the line and one behind it, which are not its own.
        let mut samples = [0xffff; 18];
        let taps: &mut [u16; 16] = (&mut samples[1..17]).try_into().unwrap();
        *taps = case.taps;
        assert_eq!(line(taps, case.depth, case.size, case.strength), Ok(()), "{case:?}");
        for (way, expected) in rust::line(&case).iter().enumerate() {
            assert_eq!(taps, expected, "way {way}, {case:?}");
        }
        assert_eq!([samples[0], samples[17]], [0xffff; 2], "{case:?}");
        case
    }));
}
