//! passes.bin: by the Rust, of passes that reach every case, and refusals of the document.

use super::padded;
use crate::passes::reached::{Reached, count};
use crate::passes::small::small;
use crate::passes::{Pass, row_cells};
use crate::positions::levelless;
use crate::random::Random;
use crate::rust;
use springspade::{Frame, Superblock, Window};
use std::{array, iter};

/// A record has room for so many cells and samples; behind those that are lent they are 0.
const CELLS: usize = 32;
pub const SAMPLES: usize = 640;

/// Passes are taken until each case that they can reach was met so often.
const OFTEN: usize = 2;

/// Of so many random passes.
const CANDIDATES: usize = 8_000;

#[derive(Clone)]
pub struct Record {
    pub pass: Pass,
    /// The refusal's, both 0 if there is none.
    number: u8,
    place: u32,
}

pub fn contents() -> Vec<u8> {
    let passes = [document(), borders(), limits(), random(33, |_| true)].concat();
    let records = passes.into_iter().map(Record::by_the_rust);
    let refused = refused(&small(), &FAULTS);
    records.chain(refused).flat_map(|record| record.bytes()).collect()
}

/// Case S, whole and cut, with transform 2 and without level.
pub fn document() -> Vec<Pass> {
    const CASE_S: u32 = 0x1156_0000;
    let frame = Frame { sharpness: 0, bit_depth: 8, sub_x: 0, sub_y: 0, mi_cols: 2, mi_rows: 1 };
    let at = Superblock { mi_row: 0, mi_col: 0, plane: 0, pass: 0 };
    let over = |row: &[u16], cells: [u32; 2]| {
        let window = Window { width: row.len(), height: 8, stride: row.len(), y_origin: 0 };
        Pass { frame, at, cells: cells.to_vec(), window, samples: row.repeat(8) }
    };
    let step: [u16; 16] = array::from_fn(|x| if x < 8 { 100 } else { 104 });
    vec![
        over(&step, [CASE_S; 2]),
        over(&step, [CASE_S, 0x1196_0000]),
        over(&step, [CASE_S, 0x1150_0000]),
        over(&step, [0x1150_0000, CASE_S]),
        over(&step[..12], [CASE_S, 0x1196_0000]),
        over(&[101, 101, 101, 101, 101, 100, 101, 100], [CASE_S; 2]),
    ]
}

/// Chroma planes of frames that end inside a superblock, in all subsamplings, with even and odd sizes:
/// the rules of the last column and the last row.
pub fn borders() -> Vec<Pass> {
    let mut random = Random(35);
    let mut passes = Vec::new();
    for k in 0..32 {
        let [sub_x, sub_y, pass, odd, wide] = array::from_fn(|bit| (k >> bit & 1) as u8);
        let mi = 2 + usize::from(odd);
        let frame = Frame { sharpness: 0, bit_depth: 8, sub_x, sub_y, mi_cols: mi, mi_rows: mi };
        // Level 63: 8 by 8 in every plane with transforms 2, which no size makes; or 16 by 16 with 0.
        let word = if wide == 1 { 0x00a7_f000 } else { 0x5507_f000 };
        // A flat plane for the wide filters, any small steps for the narrow one.
        let most = if wide == 1 { 1 } else { 9 };
        let (width, height) = ((8 * mi) >> sub_x, (8 * mi) >> sub_y);
        passes.push(Pass {
            frame,
            at: Superblock { mi_row: 0, mi_col: 0, plane: 1, pass },
            cells: vec![word; mi * mi],
            window: Window { width, height, stride: width, y_origin: 0 },
            samples: (0..width * height).map(|_| 100 + random.between(0, most) as u16).collect(),
        });
    }
    passes
}

/// The largest stride and the last rows that a window may have.
pub fn limits() -> Vec<Pass> {
    let Window { stride, y_origin, .. } = small().window;
    [(1, 131_072, y_origin), (12, stride, 65_524), (1, stride, 65_535)]
        .map(|(height, stride, y_origin)| {
            let mut pass = small();
            pass.window = Window { height, stride, y_origin, ..pass.window };
            pass
        })
        .to_vec()
}

/// Random passes that fit into a record, of those that are taken the ones that reach what was not yet
/// reached often.
pub fn random(seed: u64, is_taken: fn(&Pass) -> bool) -> Vec<Pass> {
    let mut random = Random(seed);
    let mut all = Reached::default();
    let mut passes = Vec::new();
    let candidates = iter::repeat_with(|| fitting(&mut random)).filter(is_taken);
    for pass in candidates.take(CANDIDATES) {
        let mut one = Reached::default();
        count(&mut one, &pass);
        let seldom = |name: &String| all.0.get(name).is_none_or(|&often| often < OFTEN);
        if one.0.iter().any(|(name, &count)| count > 0 && seldom(name)) {
            for (name, count) in one.0 {
                *all.0.entry(name).or_default() += count.min(1);
            }
            passes.push(pass);
        }
    }
    let missed: Vec<_> =
        all.0.iter().filter(|(_, count)| **count == 0).map(|(name, _)| name).collect();
    // A record has no room for so wide a window.
    assert_eq!(missed, ["width above 60,000"]);
    passes
}

/// A random pass with few cells, over a small window near its superblock.
fn fitting(random: &mut Random) -> Pass {
    loop {
        let mut pass = Pass::random(random);
        if row_cells(&pass.frame, pass.at.mi_row) > CELLS {
            continue;
        }
        pass.cells.truncate(CELLS);
        let Window { width, height, stride, .. } = pass.window;
        let rows = (SAMPLES.saturating_sub(width) / stride + 1).min(height);
        if width <= SAMPLES {
            pass.window.height = rows;
            pass.samples.truncate(SAMPLES);
            return pass;
        }
    }
}

/// What is wrong with a record, and the number and place of its refusal.
pub type Fault = (u8, u32, fn(&mut Pass));

pub const FAULTS: [Fault; 69] = [
    (1, 0, |p| p.frame.sharpness = 8),
    (1, 0, |p| p.frame.sharpness = 255),
    (2, 0, |p| p.frame.bit_depth = 7),
    (2, 0, |p| p.frame.bit_depth = 9),
    (2, 0, |p| p.frame.bit_depth = 11),
    (2, 0, |p| p.frame.bit_depth = 13),
    (3, 0, |p| p.frame.sub_x = 2),
    (3, 0, |p| p.frame.sub_y = 2),
    (3, 0, |p| (p.frame.sub_x, p.at.plane) = (255, 0)),
    (4, 0, |p| p.frame.mi_cols = 0),
    (4, 0, |p| p.frame.mi_rows = 0),
    (4, 0, |p| p.frame.mi_cols = 8193),
    (4, 0, |p| p.frame.mi_rows = 8193),
    (5, 0, |p| p.at.mi_row = 4),
    (5, 0, |p| p.at.mi_row = 9),
    (5, 0, |p| p.at.mi_row = 16),
    (5, 0, |p| p.frame.mi_rows = 8),
    (7, 0, |p| p.cells.truncate(21)),
    (7, 0, |p| p.cells.clear()),
    (7, 0, |p| p.frame.mi_rows = 11),
    (9, 0, |p| p.at.plane = 3),
    (9, 0, |p| p.at.plane = 255),
    (9, 0, |p| p.at.pass = 2),
    (9, 0, |p| p.at.pass = 255),
    (10, 0, |p| p.at.mi_col = 4),
    (10, 0, |p| p.at.mi_col = 9),
    (10, 0, |p| p.at.mi_col = 16),
    (10, 0, |p| p.frame.mi_cols = 8),
    (10, 0, |p| p.at.mi_col = 65528),
    (11, 0, |p| p.cells[0] |= 1),
    (11, 7, |p| p.cells[7] |= 0x800),
    (11, 21, |p| p.cells[21] |= 0xfff),
    (11, 4, |p| p.cells[4] = 0x1100_1000),
    (11, 9, |p| p.cells[9] = 0x1102_0000),
    (11, 3, |p| (p.cells[3], p.cells[2], p.cells[15]) = (0x1103_f000, 0x1104_0000, 1)),
    (12, 0, |p| p.window.width = 0),
    (12, 0, |p| p.window.width = 51),
    (12, 0, |p| (p.window.width, p.window.stride) = (65_537, 65_537)),
    (12, 0, |p| p.window.height = 0),
    (12, 0, |p| p.window.height = 13),
    (12, 0, |p| p.window.height = 65_536),
    (12, 0, |p| p.window.height = u32::MAX as usize),
    (12, 0, |p| p.window.stride = 43),
    (12, 0, |p| p.window.stride = 51),
    (12, 0, |p| (p.window.height, p.window.stride) = (1, 131_073)),
    (12, 0, |p| (p.window.height, p.window.stride, p.window.y_origin) = (32_769, 131_072, 0)),
    (12, 0, |p| p.window.y_origin = 65_525),
    (12, 0, |p| p.window.y_origin = u32::MAX as usize),
    (12, 0, |p| p.samples.truncate(593)),
    (12, 0, |p| p.samples.clear()),
    (13, 0, |p| p.samples[0] = 4096),
    (13, 43, |p| p.samples[43] = 65535),
    (13, 44, |p| p.samples[50] = 4096),
    (13, 11 * 44 + 43, |p| p.samples[593] = 4096),
    (13, 3 * 44 + 7, |p| (p.samples[157], p.samples[158], p.samples[149]) = (4096, 4096, 65535)),
    (13, 5, |p| (p.frame.bit_depth, p.samples[5]) = (8, 256)),
    (13, 6, |p| (p.frame.bit_depth, p.samples[6]) = (10, 1024)),
    (1, 0, |p| (p.frame.sharpness, p.frame.bit_depth) = (8, 9)),
    (2, 0, |p| (p.frame.bit_depth, p.frame.sub_x) = (9, 2)),
    (3, 0, |p| (p.frame.sub_y, p.frame.mi_cols) = (2, 0)),
    (4, 0, |p| (p.frame.mi_rows, p.at.mi_row) = (0, 4)),
    (5, 0, |p| (p.at.mi_row, p.at.mi_col) = (4, 4)),
    (7, 0, |p| (p.cells, p.at.plane) = (vec![u32::MAX; 21], 3)),
    (9, 0, |p| (p.at.pass, p.at.mi_col) = (2, 4)),
    (10, 0, |p| (p.at.mi_col, p.cells[5]) = (4, 1)),
    (11, 5, |p| (p.cells[5], p.window.width) = (1, 0)),
    (12, 0, |p| (p.samples[5], p.window.stride) = (4096, 43)),
    (13, 5, |p| (p.samples[5], p.cells) = (4096, vec![0; 22])),
    (1, 0, |p| (p.frame.sharpness, p.cells[5], p.window.width) = (8, 1, 0)),
];

/// An accepted pass with each of the faults.
pub fn refused(accepted: &Pass, faults: &[Fault]) -> Vec<Record> {
    let record = |&(number, place, fault): &Fault| {
        let mut pass = accepted.clone();
        fault(&mut pass);
        Record { pass, number, place }
    };
    faults.iter().map(record).collect()
}

impl Record {
    /// Refused where the Rust panics for a cell without level.
    pub fn by_the_rust(pass: Pass) -> Record {
        let place = levelless(&pass);
        assert_eq!(place.is_none(), rust::pass(&pass).is_some(), "{}", pass.call());
        let number = if place.is_some() { 14 } else { 0 };
        Record { pass, number, place: place.unwrap_or(0) }
    }

    /// What stands before the cells, of which so many are lent.
    pub fn numbers(&self, lent: usize) -> Vec<u8> {
        let Pass { frame, at, window, samples, .. } = &self.pass;
        let mut bytes = vec![frame.sharpness, frame.bit_depth, frame.sub_x, frame.sub_y];
        bytes.extend([at.plane, at.pass, self.number, u8::try_from(lent).unwrap()]);
        let numbers = [frame.mi_cols, frame.mi_rows, at.mi_row, at.mi_col];
        bytes.extend(numbers.iter().flat_map(|&n| u16::try_from(n).unwrap().to_le_bytes()));
        let numbers = [window.width, window.height, window.stride, window.y_origin, samples.len()];
        bytes.extend(numbers.iter().flat_map(|&n| u32::try_from(n).unwrap().to_le_bytes()));
        bytes.extend(self.place.to_le_bytes());
        bytes
    }

    /// The samples before and after.
    pub fn samples(&self) -> [Vec<u16>; 2] {
        let before = self.pass.samples.clone();
        let after = if self.number == 0 { rust::pass(&self.pass).unwrap() } else { before.clone() };
        [before, after]
    }

    fn bytes(&self) -> Vec<u8> {
        let cells = &self.pass.cells;
        let mut bytes = self.numbers(cells.len());
        bytes.extend(padded::<u32, CELLS>(cells).iter().flat_map(|word| word.to_le_bytes()));
        for samples in self.samples() {
            let samples = padded::<u16, SAMPLES>(&samples);
            bytes.extend(samples.iter().flat_map(|sample| sample.to_le_bytes()));
        }
        bytes
    }
}
