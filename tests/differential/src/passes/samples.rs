//! Random samples of a window. Most are made for a strength, so that every arm of the line filter runs.

use crate::lines::within;
use crate::random::Random;
use springspade::{Strength, Window};

/// Squares of one kind of samples.
struct Tiles {
    /// The side of a square.
    side: usize,
    columns: usize,
    /// The middle of each square's samples, and how far they may be from it.
    tiles: Vec<(i64, i64)>,
}

pub fn random(random: &mut Random, window: &Window, depth: u8, strength: Strength) -> Vec<u16> {
    let &Window { width, height, stride, y_origin } = window;
    let behind = if random.flag() { 0 } else { random.between(1, stride as i64 + 40) };
    let lent = (height - 1) * stride + width + behind as usize;
    // What is not the window's may be any number.
    let mut samples: Vec<u16> = (0..lent).map(|_| random.number() as u16).collect();
    let top = (1 << depth) - 1;
    let tiles = tiles(random, window, depth, strength);
    for row in 0..height {
        for (column, sample) in samples[row * stride..][..width].iter_mut().enumerate() {
            let (middle, most) = tiles.at(column, y_origin % 64 + row);
            let away = if most == 0 { 0 } else { within(random, most) };
            *sample = (middle + away).clamp(0, top) as u16;
        }
    }
    samples
}

impl Tiles {
    fn at(&self, column: usize, row: usize) -> (i64, i64) {
        self.tiles[row / self.side * self.columns + column / self.side]
    }
}

fn tiles(random: &mut Random, window: &Window, depth: u8, strength: Strength) -> Tiles {
    let scaled = |limit: u8| i64::from(limit) << (depth - 8);
    let (one, top) = (scaled(1), (1 << depth) - 1);
    let middle = match random.between(0, 3) {
        0 => random.between(0, 16),
        1 => random.between(top - 16, top),
        _ => random.between(0, top),
    };
    // blimit allows a step of 2/5 of it between flat sides; each square takes half of that.
    let step = random.one_of(&[0, one, scaled(strength.blimit) / 5, top]);
    let away = [0, 0, 1, one, one, scaled(strength.thresh), scaled(strength.limit), top];
    // A square has one of two kinds; often both are the same.
    let away = [(); 2].map(|()| {
        let kinds = random.one_of(&[5, 8]);
        random.one_of(&away[..kinds])
    });
    let side = random.one_of(&[4, 8, 8, 16, 32, 64]);
    let columns = window.width.div_ceil(side);
    let rows = (window.y_origin % 64 + window.height).div_ceil(side);
    let tile = |_| (middle + within(random, step), random.one_of(&away));
    Tiles { side, columns, tiles: (0..rows * columns).map(tile).collect() }
}
