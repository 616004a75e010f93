//! byte_passes.bin: passes over bytes: by the Rust, of passes at depth 8, and refusals of the document.

use super::padded;
use super::passes::{FAULTS, Fault, Record, SAMPLES, borders, document, limits, random, refused};
use crate::passes::Pass;
use crate::passes::small::small;

/// A record has room for so many bytes of cells; behind those that are lent they are 0.
const CELL_BYTES: usize = 128;

/// Depths that samples of 16 bits alone have.
const DEPTHS: [Fault; 3] = [
    (2, 0, |p| p.frame.bit_depth = 10),
    (2, 0, |p| p.frame.bit_depth = 12),
    (2, 0, |p| (p.frame.bit_depth, p.frame.sub_x) = (10, 2)),
];

pub fn contents() -> Vec<u8> {
    let random = random(96, |pass| pass.frame.bit_depth == 8 && has_bytes(pass));
    let passes = [document(), borders(), limits(), random].concat();
    let records = passes.into_iter().map(at_depth_8).map(Record::by_the_rust);
    let refused = [refused(&accepted(), &FAULTS), refused(&accepted(), &DEPTHS)].concat();
    let refused = refused.into_iter().filter(|record| has_bytes(&record.pass));
    // Some are lent a byte or more behind their cells.
    let lent = records.chain(refused).enumerate().map(|(k, record)| {
        let mut cells = cells(&record);
        cells.extend(&[0xff; 3][..(k % 4).min(CELL_BYTES - cells.len())]);
        bytes(&record, &cells)
    });
    lent.chain(cut()).flatten().collect()
}

fn at_depth_8(mut pass: Pass) -> Pass {
    pass.frame.bit_depth = 8;
    pass
}

fn accepted() -> Pass {
    at_depth_8(small())
}

/// Samples outside the window may be of any size.
fn has_bytes(pass: &Pass) -> bool {
    pass.samples.iter().all(|&sample| sample < 256)
}

fn cells(record: &Record) -> Vec<u8> {
    record.pass.cells.iter().flat_map(|word| word.to_be_bytes()).collect()
}

/// Refused since bytes of the last cell lack, also where a word before it is bad.
fn cut() -> Vec<Vec<u8>> {
    let short: [Fault; 2] = [(7, 0, |_| ()), (7, 0, |p| p.cells[0] = u32::MAX)];
    let mut records = Vec::new();
    for record in refused(&accepted(), &short) {
        let cells = cells(&record);
        records.extend((1..4).map(|lacking| bytes(&record, &cells[..cells.len() - lacking])));
    }
    records
}

fn bytes(record: &Record, cells: &[u8]) -> Vec<u8> {
    let mut bytes = record.numbers(cells.len());
    bytes.extend(padded::<u8, CELL_BYTES>(cells));
    for samples in record.samples() {
        let samples: Vec<u8> = samples.iter().map(|&n| u8::try_from(n).unwrap()).collect();
        bytes.extend(padded::<u8, SAMPLES>(&samples));
    }
    bytes
}
