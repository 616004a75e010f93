//! The same whole frames through the Rust's level table, cells and pass: its planes are libvpx's, and ours.
#![cfg(oracle)]

use differential::libvpx::planes::{by_the_rust, difference, ours};
use differential::{libvpx, say};

#[test]
fn planes_of_the_rust_equal() {
    let Some(folder) = libvpx::folder() else {
        return say("passed over: libvpx's vectors are not at hand");
    };
    let frames = libvpx::frames(&folder);
    let mut samples = 0;
    for frame in &frames {
        let rust = by_the_rust(frame);
        assert_eq!(difference(frame, &rust, &frame.after), None, "the Rust and libvpx");
        assert_eq!(difference(frame, &ours(frame), &rust), None, "ours and the Rust");
        samples += rust.iter().map(Vec::len).sum::<usize>();
    }
    let frames = format!("{} frames, {samples} samples", frames.len());
    say(&format!("{frames}: the Rust's planes are libvpx's and ours"));
}
