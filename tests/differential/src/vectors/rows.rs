//! rows.bin: by the Rust, of libvpx's mode info among others, and refusals of the document.

use super::padded;
use crate::cells::packed;
use crate::random::Random;
use crate::rows::{BAD, Block, MODES, REFERENCES, Row, SEGMENTS};
use crate::{libvpx, rust};
use springspade::Frame;
use std::{array, iter, path::Path};

/// A record has so many entries of each list; behind a list's length they are 0.
const ENTRIES: usize = 24;

struct Record {
    row: Row,
    /// How many words it is lent.
    words: usize,
    /// The refusal's, both 0 if there is none.
    number: u8,
    place: u8,
}

pub fn contents(folder: &Path) -> Vec<u8> {
    let rows = [sizes(), levels(), random(), frames(folder)].concat();
    // Some are lent a word or two behind their cells.
    let accepted = rows.into_iter().enumerate().map(|(k, row)| {
        let words = (row.cells() + k % 3).min(ENTRIES);
        Record { row, words, number: 0, place: 0 }
    });
    accepted.chain(refused()).flat_map(|record| record.bytes()).collect()
}

/// Lists of as many blocks as a record takes, each a row of a frame with 3 columns.
fn rows_of(blocks: &[Block], sub_x: u8, sub_y: u8) -> impl Iterator<Item = Row> {
    let frame = Frame { sharpness: 0, bit_depth: 8, sub_x, sub_y, mi_cols: 3, mi_rows: 0 };
    blocks.chunks(ENTRIES).map(move |blocks| {
        let frame = Frame { mi_rows: blocks.len() / 3, ..frame };
        let levels = array::from_fn(|k| k as u8);
        Row { frame, base: 0, levels, blocks: blocks.iter().copied().collect() }
    })
}

/// Every size and transform at each subsampling.
fn sizes() -> Vec<Row> {
    let subsamplings = [(0, 0), (0, 1), (1, 0), (1, 1)];
    let rows = subsamplings.iter().enumerate().flat_map(|(s, &(sub_x, sub_y))| {
        // Two more than there are, so that three columns are full.
        let block = |k: usize| Block {
            mi_size: (k / 4 % 13) as u8,
            tx_size: (k % 4) as u8,
            skip: ((k + s) / 2 % 2) as u8,
            ref_frame: REFERENCES[(k + s) % REFERENCES.len()],
            y_mode: MODES[k / 8 % MODES.len()],
            segment_id: SEGMENTS[k % SEGMENTS.len()],
        };
        let blocks: Vec<Block> = (0..54).map(block).collect();
        rows_of(&blocks, sub_x, sub_y).collect::<Vec<_>>()
    });
    rows.collect()
}

/// Every entry of the level table, and two without level.
fn levels() -> Vec<Row> {
    let block = |k: usize| Block {
        mi_size: 3,
        tx_size: 1,
        skip: 0,
        ref_frame: (k / 2 % 4) as i32,
        y_mode: [0, 10][k % 2],
        segment_id: (k / 8) as u8,
    };
    let blocks: Vec<Block> = (0..66).map(block).collect();
    rows_of(&blocks, 0, 0).collect()
}

/// Random rows. Behind the cells of some stands mode info that no row takes.
fn random() -> Vec<Row> {
    let mut random = Random(13);
    let rows = iter::repeat_with(|| Row::random(&mut random));
    let mut rows: Vec<Row> = rows.filter(|row| row.cells() <= ENTRIES).take(40).collect();
    for row in rows.iter_mut().step_by(2) {
        row.blocks.extend(iter::repeat_n(BAD, ENTRIES - row.cells()));
    }
    rows
}

/// Every other row of libvpx's frames that is short enough.
fn frames(folder: &Path) -> Vec<Row> {
    let frames = libvpx::frames(folder);
    let rows = frames.iter().flat_map(|frame| {
        let bases = (0..frame.frame.mi_rows).step_by(8);
        bases.map(move |base| (frame, frame.row(base)))
    });
    let short = rows.filter(|(_, row)| row.cells() <= ENTRIES).step_by(2);
    short
        .map(|(frame, row)| {
            let libvpx = &frame.cells[row.base * frame.frame.mi_cols..];
            for (rust, libvpx) in rust::row(&row).iter().zip(libvpx) {
                let libvpx = (true, libvpx.level, libvpx.uvtx);
                assert_eq!((rust.present, rust.level, rust.uvtx), libvpx, "{}", frame.name);
            }
            row
        })
        .collect()
}

/// What is wrong with a record, and the number and place of its refusal.
type Fault = (u8, u8, fn(&mut Record));

const FAULTS: [Fault; 43] = [
    (1, 0, |r| r.row.frame.sharpness = 8),
    (1, 0, |r| r.row.frame.sharpness = 255),
    (2, 0, |r| r.row.frame.bit_depth = 7),
    (2, 0, |r| r.row.frame.bit_depth = 9),
    (2, 0, |r| r.row.frame.bit_depth = 11),
    (2, 0, |r| r.row.frame.bit_depth = 13),
    (3, 0, |r| r.row.frame.sub_x = 2),
    (3, 0, |r| r.row.frame.sub_y = 2),
    (4, 0, |r| r.row.frame.mi_cols = 0),
    (4, 0, |r| r.row.frame.mi_rows = 0),
    (4, 0, |r| r.row.frame.mi_cols = 8193),
    (4, 0, |r| r.row.frame.mi_rows = 8193),
    (5, 0, |r| r.row.base = 4),
    (5, 0, |r| r.row.base = 9),
    (5, 0, |r| r.row.base = 16),
    (5, 0, |r| (r.row.frame.mi_rows, r.row.base) = (8, 8)),
    (5, 0, |r| r.row.base = 65528),
    (6, 0, |r| r.row.levels[0] = 64),
    (6, 63, |r| r.row.levels[63] = 64),
    (6, 1, |r| r.row.levels[1] = 255),
    (6, 17, |r| r.row.levels[17..40].fill(128)),
    (7, 0, |r| r.row.blocks.mi_sizes.truncate(5)),
    (7, 0, |r| r.row.blocks.tx_sizes.truncate(5)),
    (7, 0, |r| r.row.blocks.skips.truncate(5)),
    (7, 0, |r| r.row.blocks.ref_frames.truncate(5)),
    (7, 0, |r| r.row.blocks.y_modes.truncate(5)),
    (7, 0, |r| r.row.blocks.segment_ids.truncate(0)),
    (7, 0, |r| r.words = 5),
    (7, 0, |r| r.words = 0),
    (8, 0, |r| r.row.blocks.mi_sizes[0] = 13),
    (8, 5, |r| r.row.blocks.mi_sizes[5] = 255),
    (8, 0, |r| r.row.blocks.tx_sizes[0] = 4),
    (8, 5, |r| r.row.blocks.tx_sizes[5] = 255),
    (8, 0, |r| r.row.blocks.skips[0] = 2),
    (8, 5, |r| r.row.blocks.skips[5] = 255),
    (8, 2, |r| {
        r.row.blocks.mi_sizes[4] = 13;
        r.row.blocks.tx_sizes[3] = 4;
        r.row.blocks.skips[2] = 2;
    }),
    (1, 0, |r| (r.row.frame.sharpness, r.row.frame.bit_depth) = (8, 9)),
    (2, 0, |r| (r.row.frame.bit_depth, r.row.frame.sub_x) = (9, 2)),
    (3, 0, |r| (r.row.frame.sub_y, r.row.frame.mi_cols) = (2, 0)),
    (4, 0, |r| (r.row.frame.mi_rows, r.row.base) = (0, 4)),
    (5, 0, |r| (r.row.base, r.row.levels[3]) = (4, 64)),
    (6, 3, |r| (r.row.levels[3], r.words) = (64, 5)),
    (7, 0, |r| (r.row.blocks.mi_sizes[1], r.words) = (13, 5)),
];

fn refused() -> Vec<Record> {
    let record = |&(number, place, fault): &Fault| {
        // Three by two cells in the last rows of a frame, with a word to spare.
        let mut record = Record { row: Row::largest(3, 10, 8), words: 7, number, place };
        fault(&mut record);
        record
    };
    FAULTS.iter().map(record).collect()
}

impl Record {
    fn bytes(&self) -> Vec<u8> {
        let Row { frame, base, levels, blocks } = &self.row;
        let lengths = [
            blocks.mi_sizes.len(),
            blocks.tx_sizes.len(),
            blocks.skips.len(),
            blocks.ref_frames.len(),
            blocks.y_modes.len(),
            blocks.segment_ids.len(),
            self.words,
        ];
        assert!(lengths.iter().all(|&length| length <= ENTRIES), "{lengths:?}");
        let before: Vec<u32> = (0..self.words as u32).map(|k| 0xffff_ff00 + k).collect();
        let mut after = before.clone();
        if self.number == 0 {
            let cells = rust::row(&self.row);
            after.iter_mut().zip(&cells).for_each(|(word, cell)| *word = packed(cell));
        }
        let mut bytes = vec![frame.sharpness, frame.bit_depth, frame.sub_x, frame.sub_y];
        let numbers = [frame.mi_cols, frame.mi_rows, *base];
        bytes.extend(numbers.iter().flat_map(|&n| u16::try_from(n).unwrap().to_le_bytes()));
        bytes.extend(lengths.map(|length| length as u8));
        bytes.extend([self.number, self.place, 0]);
        bytes.extend(levels);
        for list in [&blocks.mi_sizes, &blocks.tx_sizes, &blocks.skips] {
            bytes.extend(padded::<_, ENTRIES>(list));
        }
        bytes.extend(padded::<_, ENTRIES>(&blocks.ref_frames).iter().flat_map(|n| n.to_le_bytes()));
        for list in [&blocks.y_modes, &blocks.segment_ids] {
            bytes.extend(padded::<_, ENTRIES>(list));
        }
        for words in [&before, &after] {
            bytes.extend(padded::<_, ENTRIES>(words).iter().flat_map(|word| word.to_le_bytes()));
        }
        bytes
    }
}
