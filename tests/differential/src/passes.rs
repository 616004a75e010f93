//! Arguments of a pass, random ones among them.

mod bytes;
pub mod compared;
pub mod reached;
mod records;
mod samples;
pub mod small;
mod unchecked;
mod windows;
pub(crate) mod words;

use crate::random::Random;
use crate::returned::Returned;
use crate::rows::superblock;
use springspade::{Frame, Superblock, Window, pass};

#[derive(Debug, Clone, PartialEq, Eq)]
pub struct Pass {
    pub frame: Frame,
    pub at: Superblock,
    /// Of the superblock row. More may stand behind its cells.
    pub cells: Vec<u32>,
    pub window: Window,
    /// All that is lent: also what lies between the window's rows and behind it.
    pub samples: Vec<u16>,
}

/// Stands before and behind what is lent. No depth has such a sample.
const GUARD: [u16; 64] = [0xbeef; 64];

impl Pass {
    /// A random pass, refused for nothing but a cell without level.
    pub fn random(random: &mut Random) -> Pass {
        let frame = frame(random);
        Pass::in_frame(random, frame)
    }

    /// The same over bytes: depth 8, and every lent sample is a byte.
    pub fn random_bytes(random: &mut Random) -> Pass {
        let frame = Frame { bit_depth: 8, ..frame(random) };
        Pass::in_frame(random, frame).of_bytes()
    }

    fn in_frame(random: &mut Random, frame: Frame) -> Pass {
        let row = superblock(random, frame.mi_rows);
        // Of so many cells one has no level.
        let absent = random.one_of(&[0, 0, 0, 0, 0, 0, 0, 2, 20, 100]);
        let cells = words::random(random, &frame, row, absent);
        Pass::over(random, frame, row, cells)
    }

    /// A random superblock, plane and window over the cells of a superblock row.
    pub fn over(random: &mut Random, frame: Frame, row: usize, cells: Vec<u32>) -> Pass {
        let at = Superblock {
            mi_row: row,
            mi_col: superblock(random, frame.mi_cols),
            plane: random.between(0, 2) as u8,
            pass: random.flag().into(),
        };
        let window = windows::random(random, &frame, &at);
        Pass::lent(random, frame, at, cells, window)
    }

    /// Random cells with level, and random samples.
    pub fn accepted(random: &mut Random, frame: Frame, at: Superblock, window: Window) -> Pass {
        let cells = words::random(random, &frame, at.mi_row, 0);
        Pass::lent(random, frame, at, cells, window)
    }

    /// Random samples, made for the level of one of the cells.
    fn lent(
        random: &mut Random,
        frame: Frame,
        at: Superblock,
        cells: Vec<u32>,
        window: Window,
    ) -> Pass {
        let level = words::level(random.one_of(&cells[..row_cells(&frame, at.mi_row)]));
        let strength = springspade::strength(level, frame.sharpness).unwrap();
        let samples = samples::random(random, &window, frame.bit_depth, strength);
        Pass { frame, at, cells, window, samples }
    }

    /// How many cells the superblock row has.
    pub fn row_cells(&self) -> usize {
        row_cells(&self.frame, self.at.mi_row)
    }

    /// The subsampling that holds in the plane.
    pub fn subsampling(&self) -> (u8, u8) {
        subsampling(&self.frame, self.at.plane)
    }

    /// What ours returns, and the lent samples after it. Those beside them are left.
    pub fn ours(&self) -> (Returned, Vec<u16>) {
        let Pass { frame, at, cells, window, .. } = self;
        self.guarded(|samples| pass(samples, window, cells, frame, at).into())
    }

    /// Runs on a copy of what is lent, and gives its samples after it. Those beside them must be left.
    fn guarded<T>(&self, run: impl FnOnce(&mut [u16]) -> T) -> (T, Vec<u16>) {
        self.between(&GUARD, &self.samples, run)
    }

    /// Runs on a copy of these samples between guards, and gives them after it. The guards must be left.
    fn between<S: Copy + PartialEq, T>(
        &self,
        guard: &[S],
        samples: &[S],
        run: impl FnOnce(&mut [S]) -> T,
    ) -> (T, Vec<S>) {
        let mut memory = [guard, samples, guard].concat();
        let lent = guard.len()..guard.len() + samples.len();
        let returned = run(&mut memory[lent.clone()]);
        assert!(memory[..lent.start] == *guard, "before the samples, {}", self.call());
        assert!(memory[lent.end..] == *guard, "behind the samples, {}", self.call());
        (returned, memory[lent].to_vec())
    }

    /// The call without its lists, for messages.
    pub fn call(&self) -> String {
        let Pass { frame, at, window, cells, samples } = self;
        let lent = format!("{} cells, {} samples", cells.len(), samples.len());
        format!("{frame:?}, {at:?}, {window:?}, {lent}")
    }

    /// Where two lists of the lent samples differ, and how, for messages.
    pub fn difference(&self, a: &[u16], b: &[u16]) -> String {
        let Some(k) = (0..a.len()).find(|&k| a[k] != b[k]) else {
            return "none".to_string();
        };
        let Window { stride, y_origin, .. } = self.window;
        let (x, y) = (k % stride, y_origin + k / stride);
        format!("sample {x}, {y} was {}: {} and {}, {}", self.samples[k], a[k], b[k], self.call())
    }
}

pub fn row_cells(frame: &Frame, row: usize) -> usize {
    frame.mi_rows.saturating_sub(row).min(8) * frame.mi_cols
}

/// Plane 0 counts as not subsampled.
pub fn subsampling(frame: &Frame, plane: u8) -> (u8, u8) {
    if plane == 0 { (0, 0) } else { (frame.sub_x, frame.sub_y) }
}

fn frame(random: &mut Random) -> Frame {
    Frame {
        sharpness: random.one_of(&[0, 0, 0, 1, 2, 3, 4, 5, 6, 7]),
        bit_depth: random.one_of(&[8, 10, 12]),
        sub_x: random.flag().into(),
        sub_y: random.flag().into(),
        // A row as long as it can be takes a thousand times as long as others.
        mi_cols: mi_count(random, 999),
        mi_rows: mi_count(random, 19),
    }
}

/// `mi_cols` or `mi_rows`: what ends inside one of three superblocks, the greatest once in so many.
fn mi_count(random: &mut Random, others: i64) -> usize {
    match random.between(0, others) {
        0 => random.one_of(&[8184, 8185, 8191, 8192]),
        _ if random.flag() => random.one_of(&[1, 2, 3, 5, 7, 8, 9, 15, 16, 17]),
        _ => random.between(1, 20) as usize,
    }
}
