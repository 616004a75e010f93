//! Refusals of the line and of the pass over bytes, where they are not those over u16. What both have in common is in
//! pass_refusals.rs and pass_windows.rs, whose passes are all made over bytes too.

use differential::lines::STEP;
use differential::passes::Pass;
use differential::passes::small::{accepted, small};
use differential::returned::Returned;
use springspade::{Refused, line, line_bytes, strength};

/// What the line over the first `lent` of 24 bytes is refused with. It leaves all of them then.
fn line_refused(lent: usize, depth: u8, size: u8) -> Option<u32> {
    let before: [u8; 24] = std::array::from_fn(|k| STEP[k % 16] as u8);
    let mut bytes = before;
    let strength = strength(32, 0).unwrap();
    match line_bytes(&mut bytes[..lent], depth, size, strength) {
        Ok(()) => {
            let mut taps = STEP;
            line(&mut taps, depth, size, strength).unwrap();
            assert!(bytes[..16].iter().copied().map(u16::from).eq(taps), "size {size}");
            assert_eq!(bytes[16..], before[16..], "size {size}");
            None
        }
        Err(Refused { number, place }) => {
            assert_eq!((bytes, place), (before, 0), "{lent} bytes, depth {depth}, size {size}");
            Some(number)
        }
    }
}

/// 2 before 7 before 15.
#[test]
fn lines() {
    for depth in 0..=255 {
        for lent in 0..=24 {
            for size in [0, 1, 2, 3, 255] {
                let number = match (depth, lent, size) {
                    (8, 16.., 0..=2) => None,
                    (8, 16.., _) => Some(15),
                    (8, ..) => Some(7),
                    _ => Some(2),
                };
                assert_eq!(line_refused(lent, depth, size), number, "{lent}, {depth}, {size}");
            }
        }
    }
    for size in 0..=255 {
        assert_eq!(line_refused(16, 8, size), (size > 2).then_some(15));
    }
}

/// The small pass over bytes, with one thing changed.
fn with(change: impl FnOnce(&mut Pass)) -> Pass {
    let mut pass = small().of_bytes();
    change(&mut pass);
    pass
}

/// Refused over these cells, and all samples are left.
fn refused(pass: &Pass, cells: &[u8], number: u32, place: u32) {
    let (returned, after) = pass.ours_by_bytes(cells, 0);
    assert_eq!(returned, Returned { number, place }, "{} bytes, {}", cells.len(), pass.call());
    assert!(after == pass.samples, "{}", pass.difference(&after, &pass.samples));
}

#[test]
fn depths() {
    accepted(&small().of_bytes());
    for bit_depth in (0..=255).filter(|&depth| depth != 8) {
        let pass = with(|pass| pass.frame.bit_depth = bit_depth);
        refused(&pass, &pass.cell_bytes(), 2, 0);
        // 1 comes before 2, and 2 before all else.
        let pass = with(|pass| (pass.frame.sharpness, pass.frame.bit_depth) = (8, bit_depth));
        refused(&pass, &pass.cell_bytes(), 1, 0);
        let pass = with(|pass| (pass.frame.bit_depth, pass.frame.sub_x) = (bit_depth, 2));
        refused(&pass, &[], 2, 0);
    }
}

/// Four bytes are asked for each cell of the row. What lies behind them is not read.
#[test]
fn cells_too_few() {
    let pass = small().of_bytes();
    let mut cells = pass.cell_bytes();
    let expected = pass.ours_by_bytes(&cells, 0);
    assert_eq!(cells.len(), 4 * 22);
    for count in 0..4 * 22 {
        refused(&pass, &cells[..count], 7, 0);
    }
    for _ in 0..9 {
        cells.push(0xff);
        assert!(pass.ours_by_bytes(&cells, 0) == expected, "{} bytes", cells.len());
    }
}

/// 7 comes behind 1 to 5, and before all else.
#[test]
fn order_of_too_few_cells() {
    let short = &small().cell_bytes()[..4 * 22 - 1];
    for (number, fault) in [
        (1, (|pass| pass.frame.sharpness = 8) as fn(&mut Pass)),
        (2, |pass| pass.frame.bit_depth = 10),
        (3, |pass| pass.frame.sub_y = 2),
        (4, |pass| pass.frame.mi_rows = 0),
        (5, |pass| pass.at.mi_row = 16),
        (7, |pass| pass.at.plane = 3),
        (7, |pass| pass.at.mi_col = 16),
        (7, |pass| pass.window.width = 0),
        (7, |pass| pass.samples.clear()),
    ] {
        refused(&with(fault), short, number, 0);
    }
}

/// The zero bits are in the third and the fourth byte of a cell. The place is the cell.
#[test]
fn words() {
    let pass = small().of_bytes();
    for cell in 0..22 {
        for bit in 0..12 {
            let mut cells = pass.cell_bytes();
            cells[4 * cell + 3 - bit / 8] |= 1 << (bit % 8);
            refused(&pass, &cells, 11, cell as u32);
            cells[4 * cell + 4..].fill(0xff);
            refused(&pass, &cells, 11, cell as u32);
        }
    }
}

/// Any byte is a sample.
#[test]
fn samples() {
    for sample in 0..=255 {
        accepted(&with(|pass| pass.samples.fill(sample)));
    }
}
