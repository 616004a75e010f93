//! Random bytes: any, any behind a likely header, and damaged copies of good sheets.

use super::{BITS, Fields, HEADER, Sheet};
use crate::random::Random;

/// A copy has so many columns at most, and so a few hundred bytes.
const MOST: i64 = 10;

pub fn bytes(random: &mut Random) -> Vec<u8> {
    match random.between(0, 7) {
        0 => any(random, 300),
        1 => headed(random),
        _ => damaged(random),
    }
}

fn any(random: &mut Random, most: i64) -> Vec<u8> {
    (0..random.between(0, most)).map(|_| random.number() as u8).collect()
}

/// A header of small numbers, most of them not refused, then bytes of which few are bad words.
fn headed(random: &mut Random) -> Vec<u8> {
    let most: Fields = [4, 20, 1, 1, 7, 2, 2, 1, 2, 0, 0];
    let fields = most.map(|most| random.between(0, most as i64) as u64);
    let mask = random.one_of(&[0xfffc_0000, 0xffff_f000, 0xffff_ffff]);
    let present = random.one_of(&[0, 1 << 18]);
    let words = (0..random.between(0, 40)).map(|_| random.number() as u32 & mask | present);
    Sheet::from_fields(fields, words.collect()).bytes()
}

/// A good sheet, damaged once or twice.
fn damaged(random: &mut Random) -> Vec<u8> {
    let mut bytes = Sheet::few(random, MOST).bytes();
    for _ in 0..random.between(1, 2) {
        damage(random, &mut bytes);
    }
    bytes
}

fn damage(random: &mut Random, bytes: &mut Vec<u8>) {
    let length = bytes.len() as i64;
    match random.between(0, 7) {
        0 => flip(random, bytes, HEADER),
        1 => flip(random, bytes, usize::MAX),
        2 => bytes.truncate(random.between(0, length) as usize),
        // Around the last byte that the sheet needs.
        3 => bytes.truncate((length - random.between(0, 9)).max(0) as usize),
        4 => bytes.extend(any(random, 20)),
        5 => bytes.insert(random.between(0, length) as usize, random.number() as u8),
        6 if length > 0 => drop(bytes.remove(random.between(0, length - 1) as usize)),
        _ => change_field(random, bytes),
    }
}

/// Flips up to three of the first bits.
fn flip(random: &mut Random, bytes: &mut [u8], first: usize) {
    let bits = 8 * bytes.len().min(first) as i64;
    if bits == 0 {
        return;
    }
    for _ in 0..random.between(1, 3) {
        let bit = random.between(0, bits - 1) as usize;
        bytes[bit / 8] ^= 1 << (bit % 8);
    }
}

/// Moves a field of the header by one, or makes it its greatest.
fn change_field(random: &mut Random, bytes: &mut [u8]) {
    let Some(sheet) = Sheet::read(bytes) else { return };
    let mut fields = sheet.fields();
    let field = random.between(0, BITS.len() as i64 - 1) as usize;
    let greatest = (1 << BITS[field]) - 1;
    let changes = [fields[field].wrapping_sub(1), fields[field] + 1, greatest];
    fields[field] = random.one_of(&changes) & greatest;
    let header = Sheet::from_fields(fields, Vec::new()).bytes();
    bytes[..HEADER].copy_from_slice(&header);
}
