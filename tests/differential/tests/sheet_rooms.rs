//! The buffer that a text is written to: what is too small is left, and so is what lies behind a text.

use differential::sheets::expected::expected;
use differential::sheets::small::{small, with};
use springspade::{SHEET_ROOM, sheet_into};

/// No byte of a text.
const LEFT: u8 = 0xa5;

/// A sheet with runs, one without, and refused ones, the last under 8 bytes.
fn sheets() -> [Vec<u8>; 5] {
    [
        small().bytes(),
        with(|sheet| sheet.words.fill(1 << 18)).bytes(),
        with(|sheet| sheet.words.fill(0)).bytes(),
        with(|sheet| sheet.spare = 1).bytes(),
        Vec::new(),
    ]
}

/// Writes into so many bytes in the middle of others, which are left.
fn written(bytes: &[u8], room: usize) -> (Option<usize>, Vec<u8>) {
    let mut memory = vec![LEFT; 4096 + room + 4096];
    let length = sheet_into(bytes, &mut memory[4096..4096 + room]);
    let rest = memory.split_off(4096);
    let (out, behind) = rest.split_at(room);
    assert!(memory.iter().chain(behind).all(|&byte| byte == LEFT), "beside {room} bytes");
    (length, out.to_vec())
}

#[test]
fn too_small() {
    assert_eq!(SHEET_ROOM, 2048);
    for bytes in sheets() {
        for room in [0, 1, 26, 27, 28, 100, 1024, 1585, 2046, 2047] {
            let (length, out) = written(&bytes, room);
            assert_eq!(length, None, "room {room}");
            assert!(out.iter().all(|&byte| byte == LEFT), "room {room}");
        }
    }
}

#[test]
fn large_enough() {
    for bytes in sheets() {
        let text = expected(&bytes);
        for room in [2048, 2049, 4096, 100_000] {
            let (length, out) = written(&bytes, room);
            assert_eq!(length, Some(text.len()), "room {room}");
            let (front, behind) = out.split_at(text.len());
            assert_eq!(front, text.as_bytes(), "room {room}");
            assert!(behind.iter().all(|&byte| byte == LEFT), "behind the text, room {room}");
        }
    }
}

/// What stood in the buffer does not matter to the text.
#[test]
fn written_over() {
    for bytes in sheets() {
        let text = expected(&bytes);
        for byte in [0, b'\n', b'9', 0xff] {
            let mut out = [byte; SHEET_ROOM];
            assert_eq!(sheet_into(&bytes, &mut out), Some(text.len()));
            assert_eq!(out[..text.len()], *text.as_bytes());
            assert!(out[text.len()..].iter().all(|&left| left == byte));
        }
    }
}
