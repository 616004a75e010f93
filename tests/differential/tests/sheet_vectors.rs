//! Ours over the records of sheets.bin, read by the layout that vectors.rs gives.

use differential::sheets::{ours, shown};
use std::collections::BTreeSet;

const RECORD: usize = 1860;

/// The sheet of a record, and its text.
fn read(record: &[u8]) -> (&[u8], &[u8]) {
    let (lengths, rest) = record.split_at(4);
    let (sheet, text) = rest.split_at(272);
    (part(sheet, &lengths[..2]), part(text, &lengths[2..]))
}

/// The first bytes of a room; the others are 0.
fn part<'a>(room: &'a [u8], length: &[u8]) -> &'a [u8] {
    let length = u16::from_le_bytes([length[0], length[1]]);
    let (part, behind) = room.split_at(length.into());
    assert!(behind.iter().all(|&byte| byte == 0), "behind {length} bytes");
    part
}

#[test]
fn records() {
    let file = concat!(env!("CARGO_MANIFEST_DIR"), "/../../crates/vectors/data/sheets.bin");
    let bytes = std::fs::read(file).unwrap_or_else(|e| panic!("{file}: {e}"));
    assert_eq!(bytes.len() % RECORD, 0);
    let mut refused = BTreeSet::new();
    let mut runs = 0;
    for (k, record) in bytes.chunks(RECORD).enumerate() {
        let (sheet, text) = read(record);
        let text = std::str::from_utf8(text).unwrap();
        assert_eq!(ours(sheet), text, "record {k}, {}", shown(sheet));
        match text.strip_prefix("refused ") {
            Some(numbers) => drop(refused.insert(numbers.split(' ').next().unwrap().to_string())),
            None => runs += text.lines().count() - 1,
        }
    }
    let numbers = ["10", "11", "14", "17", "2", "4", "5", "7", "9"];
    assert!(refused.iter().eq(&numbers), "{refused:?}");
    assert!(runs > 500, "{runs} runs");
}
