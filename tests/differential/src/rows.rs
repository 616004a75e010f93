//! Arguments of a row: mode info of its cells, random ones among them.

use crate::random::Random;
use crate::returned::Returned;
use springspade::{Frame, ModeInfo, row};
use std::iter;

/// The mode info of one cell.
#[derive(Debug, Clone, Copy, PartialEq, Eq)]
pub struct Block {
    pub mi_size: u8,
    pub tx_size: u8,
    pub skip: u8,
    pub ref_frame: i32,
    pub y_mode: u8,
    pub segment_id: u8,
}

/// Mode info as lists.
#[derive(Debug, Clone, PartialEq, Eq, Default)]
pub struct Blocks {
    pub mi_sizes: Vec<u8>,
    pub tx_sizes: Vec<u8>,
    pub skips: Vec<u8>,
    pub ref_frames: Vec<i32>,
    pub y_modes: Vec<u8>,
    pub segment_ids: Vec<u8>,
}

/// A row's arguments.
#[derive(Debug, Clone, PartialEq, Eq)]
pub struct Row {
    pub frame: Frame,
    pub base: usize,
    /// At segment * 8 + reference * 2 + mode type.
    pub levels: [u8; 64],
    pub blocks: Blocks,
}

/// The largest numbers that are accepted, and the last entry of the level table.
const LARGEST: Block =
    Block { mi_size: 12, tx_size: 3, skip: 1, ref_frame: 3, y_mode: 13, segment_id: 7 };

/// Refused for each of its first three numbers.
pub const BAD: Block = Block { mi_size: 13, tx_size: 4, skip: 2, ..LARGEST };

/// References, modes and segments on both sides of their limits.
pub const REFERENCES: [i32; 8] = [i32::MIN, -1, 0, 1, 2, 3, 4, i32::MAX];
pub const MODES: [u8; 8] = [0, 9, 10, 11, 12, 13, 14, 255];
pub const SEGMENTS: [u8; 5] = [0, 3, 7, 8, 255];

impl Block {
    /// A random one that is not refused.
    pub fn random(random: &mut Random) -> Block {
        Block {
            mi_size: random.between(0, 12) as u8,
            tx_size: random.between(0, 3) as u8,
            skip: random.flag().into(),
            ref_frame: reference(random),
            y_mode: random.one_of(&MODES),
            segment_id: match random.between(0, 7) {
                0 => random.number() as u8,
                _ => random.between(0, 7) as u8,
            },
        }
    }
}

/// Any reference; most of them have a level.
pub fn reference(random: &mut Random) -> i32 {
    match random.between(0, 7) {
        0 => random.number() as i32,
        1..4 => random.one_of(&REFERENCES),
        _ => random.between(0, 3) as i32,
    }
}

/// `mi_cols` or `mi_rows`: the least, the greatest, and what ends inside one of three superblocks.
pub fn mi_count(random: &mut Random) -> usize {
    match random.between(0, 63) {
        0 => random.one_of(&[8184, 8185, 8191, 8192]),
        1..8 => random.one_of(&[1, 2, 7, 8, 9, 16]),
        _ => random.between(1, 24) as usize,
    }
}

/// The first row or column of a superblock, the last one often.
pub fn superblock(random: &mut Random, mi: usize) -> usize {
    let last = (mi as i64 - 1) / 8;
    let any = random.between(0, last);
    (8 * random.one_of(&[any, last])) as usize
}

impl FromIterator<Block> for Blocks {
    fn from_iter<I: IntoIterator<Item = Block>>(blocks: I) -> Blocks {
        let mut lists = Blocks::default();
        lists.extend(blocks);
        lists
    }
}

impl Extend<Block> for Blocks {
    fn extend<I: IntoIterator<Item = Block>>(&mut self, blocks: I) {
        for block in blocks {
            self.mi_sizes.push(block.mi_size);
            self.tx_sizes.push(block.tx_size);
            self.skips.push(block.skip);
            self.ref_frames.push(block.ref_frame);
            self.y_modes.push(block.y_mode);
            self.segment_ids.push(block.segment_id);
        }
    }
}

impl Blocks {
    pub fn info(&self) -> ModeInfo<'_> {
        ModeInfo {
            mi_sizes: &self.mi_sizes,
            tx_sizes: &self.tx_sizes,
            skips: &self.skips,
            ref_frames: &self.ref_frames,
            y_modes: &self.y_modes,
            segment_ids: &self.segment_ids,
        }
    }

    pub fn at(&self, k: usize) -> Block {
        Block {
            mi_size: self.mi_sizes[k],
            tx_size: self.tx_sizes[k],
            skip: self.skips[k],
            ref_frame: self.ref_frames[k],
            y_mode: self.y_modes[k],
            segment_id: self.segment_ids[k],
        }
    }
}

impl Row {
    /// A random row that is not refused, its lists as long as its cells.
    pub fn random(random: &mut Random) -> Row {
        let frame = Frame {
            sharpness: random.between(0, 7) as u8,
            bit_depth: random.one_of(&[8, 10, 12]),
            sub_x: random.flag().into(),
            sub_y: random.flag().into(),
            mi_cols: mi_count(random),
            mi_rows: mi_count(random),
        };
        let base = superblock(random, frame.mi_rows);
        let levels = [(); 64].map(|()| random.between(0, 63) as u8);
        let mut row = Row { frame, base, levels, blocks: Blocks::default() };
        row.blocks.extend((0..row.cells()).map(|_| Block::random(random)));
        row
    }

    /// A random row of few cells; most have a level.
    pub fn small(random: &mut Random) -> Row {
        let mut row = Row::random(random);
        row.frame.mi_cols = row.frame.mi_cols.min(24);
        row.base = superblock(random, row.frame.mi_rows);
        let levels = [(); 3].map(|()| random.between(0, 63) as u8);
        row.levels = [(); 64].map(|()| random.one_of(&levels));
        let absent = random.between(0, 3) == 0;
        let block = |_| {
            let block = Block::random(random);
            if absent && random.between(0, 15) == 0 {
                return block;
            }
            let (ref_frame, segment_id) = (random.between(0, 3) as i32, random.between(0, 7) as u8);
            Block { ref_frame, segment_id, ..block }
        };
        row.blocks = (0..row.cells()).map(block).collect();
        row
    }

    /// A row whose numbers are the largest that are accepted, its lists as long as its cells.
    pub fn largest(mi_cols: usize, mi_rows: usize, base: usize) -> Row {
        let frame = Frame { sharpness: 7, bit_depth: 12, sub_x: 1, sub_y: 1, mi_cols, mi_rows };
        let mut row = Row { frame, base, levels: [63; 64], blocks: Blocks::default() };
        row.blocks.extend(iter::repeat_n(LARGEST, row.cells()));
        row
    }

    /// How many cells the row has.
    pub fn cells(&self) -> usize {
        self.frame.mi_rows.saturating_sub(self.base).min(8) * self.frame.mi_cols
    }

    pub fn info(&self) -> ModeInfo<'_> {
        self.blocks.info()
    }

    /// Ours, into these words.
    pub fn ours(&self, words: &mut [u32]) -> Returned {
        row(&self.info(), &self.levels, &self.frame, self.base, words).into()
    }

    /// Ours, which must be accepted, into words of its own.
    pub fn words(&self) -> Vec<u32> {
        let mut words = vec![0; self.cells()];
        self.ours(&mut words).accepted().unwrap();
        words
    }
}
