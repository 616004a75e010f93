//! Lines of the line filter: random ones, and what the filter does to each.

use crate::many::{count, summed};
use crate::random::Random;
use springspade::Strength;

#[derive(Debug, Clone, Copy, PartialEq, Eq)]
pub struct Line {
    pub depth: u8,
    pub size: u8,
    pub strength: Strength,
    /// p7 to p0, then q0 to q7.
    pub taps: [u16; 16],
}

/// The samples of the document's lines: all p 100, all q 104.
pub const STEP: [u16; 16] =
    [100, 100, 100, 100, 100, 100, 100, 100, 104, 104, 104, 104, 104, 104, 104, 104];

/// Which samples are filtered: none, up to four, six or fourteen.
#[derive(Debug, Clone, Copy, PartialEq, Eq, Hash)]
pub enum Arm {
    None,
    Narrow,
    Six,
    Fourteen,
}

impl Line {
    /// A random line that is not refused.
    pub fn random(random: &mut Random) -> Line {
        let depth = random.one_of(&[8, 10, 12]);
        Line::at_depth(random, depth)
    }

    /// The same at this depth.
    pub fn at_depth(random: &mut Random, depth: u8) -> Line {
        // Fourteen samples are filtered at size 2 alone.
        let size = random.one_of(&[0, 1, 2, 2]);
        let strength = strength(random);
        Line { depth, size, strength, taps: taps(random, depth, strength) }
    }

    /// The standard's choice, from its masks.
    pub fn arm(&self) -> Arm {
        let scaled = |limit: u8| i32::from(limit) << (self.depth - 8);
        let Strength { limit, blimit, .. } = self.strength;
        let p = |k: usize| i32::from(self.taps[7 - k]);
        let q = |k: usize| i32::from(self.taps[8 + k]);
        let at_most = |most: i32, a: usize, b: usize| {
            (p(a) - p(b)).abs() <= most && (q(a) - q(b)).abs() <= most
        };
        let steps = (0..3).all(|k| at_most(scaled(limit), k, k + 1));
        let across = (p(0) - q(0)).abs() * 2 + (p(1) - q(1)).abs() / 2;
        let flat = || (1..4).all(|k| at_most(scaled(1), 0, k));
        let flat2 = || (4..8).all(|k| at_most(scaled(1), 0, k));
        if !steps || across > scaled(blimit) {
            Arm::None
        } else if self.size == 0 || !flat() {
            Arm::Narrow
        } else if self.size == 1 || !flat2() {
            Arm::Six
        } else {
            Arm::Fourteen
        }
    }
}

/// Compares random lines, as many as are asked for, each in the way that makes it. Says how many of `what` are equal.
pub fn compare_all(what: &str, seed: u64, one: fn(&mut Random) -> Line) -> String {
    let lines = count("SPRINGSPADE_LINES", 1_000_000);
    let arms = summed(lines, seed, |random| {
        let mut arms = [0; 4];
        arms[one(random).arm() as usize] = 1;
        arms
    });
    assert!(arms.iter().all(|&count| count >= lines / 10), "an arm is rare: {arms:?}");
    format!("{lines} {what} equal the Rust's; none, narrow, six, fourteen: {arms:?}")
}

/// That of a level and sharpness, or any bytes.
fn strength(random: &mut Random) -> Strength {
    if random.flag() {
        let (lvl, sharpness) = (random.between(0, 63), random.between(0, 7));
        return springspade::strength(lvl as u8, sharpness as u8).unwrap();
    }
    let [limit, blimit, thresh, ..] = random.number().to_le_bytes();
    Strength { limit, blimit, thresh }
}

/// Random samples. Most are made for the strength, and many stand exactly at one of its limits.
pub fn taps(random: &mut Random, depth: u8, strength: Strength) -> [u16; 16] {
    let top = (1 << depth) - 1;
    let mut taps = match random.between(0, 15) {
        0 => [(); 16].map(|()| random.between(0, top)),
        1 => [(); 16].map(|()| random.one_of(&[0, top])),
        _ => edge(random, depth, strength),
    };
    // What stands at a limit may come to stand just behind it.
    if random.between(0, 3) == 0 {
        taps[random.between(0, 15) as usize] += random.one_of(&[-1, 1]);
    }
    taps.map(|tap| tap.clamp(0, top) as u16)
}

/// Two sides and a step between them. Samples may leave their range.
fn edge(random: &mut Random, depth: u8, strength: Strength) -> [i64; 16] {
    let scaled = |limit: u8| i64::from(limit) << (depth - 8);
    let (one, limit, thresh) = (scaled(1), scaled(strength.limit), scaled(strength.thresh));
    let top = (1 << depth) - 1;
    let p0 = match random.between(0, 3) {
        0 => random.between(0, 16),
        1 => random.between(top - 16, top),
        _ => random.between(0, top),
    };
    // blimit allows 2/5 of it where p1 is p0 and q1 is q0.
    let q0 = p0 + within(random, scaled(strength.blimit) * 2 / 5);
    let near = random.one_of(&[0, 1, one, one]);
    let far = random.one_of(&[limit, thresh.min(limit)]);
    // So many samples of a side stay near its first; each one behind them starts from the one before.
    let flat = random.one_of(&[0, 3, 7, 7]);
    let mut taps = [0; 16];
    (taps[7], taps[8]) = (p0, q0);
    for k in 1..8 {
        let (p, q, most) = if k <= flat { (p0, q0, near) } else { (taps[8 - k], taps[7 + k], far) };
        taps[7 - k] = p + within(random, most);
        taps[8 + k] = q + within(random, most);
    }
    taps
}

/// From `-most` to `most`, both ends often.
pub fn within(random: &mut Random, most: i64) -> i64 {
    match random.between(0, 7) {
        0 => -most,
        1 => most,
        _ => random.between(-most, most),
    }
}
