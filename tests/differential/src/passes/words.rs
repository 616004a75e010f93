//! Random cells of a superblock row, as words.

use crate::random::Random;
use crate::rows::{Block, Row};
use springspade::Frame;

const PRESENT: u32 = 1 << 18;

/// Present, level and the zero bits.
const LEVEL_FIELDS: u32 = (1 << 19) - 1;

/// The level of a word, 0 where it has none.
pub fn level(word: u32) -> u8 {
    (word >> 12 & 63) as u8
}

/// The words of a row, and now and then one that is refused behind them. One in `absent` has no level.
pub fn random(random: &mut Random, frame: &Frame, row: usize, absent: i64) -> Vec<u32> {
    let count = super::row_cells(frame, row);
    let mut words = match random.between(0, 3) {
        0 => made(random, *frame, row),
        1 => {
            // So few that neighbours are often equal.
            let few: Vec<u32> = (0..random.between(1, 4)).map(|_| word(random)).collect();
            (0..count).map(|_| random.one_of(&few)).collect()
        }
        _ => (0..count).map(|_| word(random)).collect(),
    };
    set_levels(random, &mut words, absent);
    words.extend((0..random.between(-6, 2)).map(|_| u32::MAX));
    words
}

/// Any fields before the level; no size makes most of them.
fn word(random: &mut Random) -> u32 {
    random.number() as u32 & !LEVEL_FIELDS
}

/// What the row makes of random blocks.
fn made(random: &mut Random, frame: Frame, base: usize) -> Vec<u32> {
    let mut row = Row { frame, base, levels: [0; 64], blocks: Default::default() };
    row.blocks.extend((0..row.cells()).map(|_| Block::random(random)));
    row.words()
}

/// Gives the cells one of three levels each, and to one in `absent` of them none.
fn set_levels(random: &mut Random, words: &mut [u32], absent: i64) {
    let levels = [(); 3].map(|()| level_of_row(random));
    for word in words.iter_mut() {
        let is_absent = absent > 0 && random.between(1, absent) == 1;
        let level = if is_absent { 0 } else { PRESENT | random.one_of(&levels) << 12 };
        *word = *word & !LEVEL_FIELDS | level;
    }
}

fn level_of_row(random: &mut Random) -> u32 {
    match random.between(0, 7) {
        0 => 0,
        1 => random.one_of(&[1, 62, 63]),
        _ => random.between(1, 63) as u32,
    }
}
