//! The planes that superblocks side by side are filtered in: windows and samples, 4:2:0.

use differential::passes::subsampling;
use differential::random::Random;
use oracle::frame_buf::Px;
use springspade::{Frame, Window};
use std::array;

pub type Planes = [Vec<u16>; 3];

/// Writes the samples into planes of any type.
pub fn fill<S: Px>(planes: &mut [Vec<S>; 3], from: &Planes) {
    for (plane, from) in planes.iter_mut().zip(from) {
        plane.clear();
        plane.extend(from.iter().map(|&sample| S::put(sample.into())));
    }
}

/// The superblock row of a plane from this row of cells on, the eight rows above it, and so many below.
pub fn window(frame: &Frame, base: usize, below: usize, plane: u8) -> Window {
    let (sub_x, sub_y) = subsampling(frame, plane);
    let width = (8 * frame.mi_cols) >> sub_x;
    let height = 8 + (64 >> sub_y) + below;
    Window { width, height, stride: width, y_origin: ((8 * base) >> sub_y) - 8 }
}

/// The samples of these windows.
pub fn planes(random: &mut Random, windows: &[Window; 3], depth: u8, kind: &str) -> Planes {
    array::from_fn(|plane| {
        let Window { width, height, .. } = windows[plane];
        (0..height).flat_map(|y| samples(random, y, width, depth, kind)).collect()
    })
}

/// One row of samples: nearly flat, with noise about the limits, or either by turns of 32.
fn samples(random: &mut Random, y: usize, width: usize, depth: u8, kind: &str) -> Vec<u16> {
    let sample = |x: usize| {
        let is_smooth = kind == "smooth" || kind == "mixed" && (x / 32 + y / 32).is_multiple_of(2);
        let noise = if is_smooth { 0 } else { random.between(0, 40) };
        let eight = 90 + (x / 16 + y / 16) as i64 % 40 + noise;
        (eight << (depth - 8)) as u16 + u16::from(random.flag())
    };
    (0..width).map(sample).collect()
}
