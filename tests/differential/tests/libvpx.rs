//! Ours against what libvpx computes.

use differential::{libvpx, say};
use springspade::{Strength, cell, edge, level_table, line, line_bytes, row, strength};

#[test]
fn strengths_equal() {
    let Some(folder) = libvpx::folder() else {
        return say("passed over: libvpx's vectors are not at hand");
    };
    let strengths = libvpx::strengths(&folder);
    assert_eq!(strengths.len(), 512);
    for (i, &[sharpness, lvl, limit, blimit, thresh]) in strengths.iter().enumerate() {
        assert_eq!(i, sharpness as usize * 64 + lvl as usize);
        assert_eq!(strength(lvl, sharpness), Ok(Strength { limit, blimit, thresh }));
    }
}

#[test]
fn level_tables_equal() {
    let Some(folder) = libvpx::folder() else {
        return say("passed over: libvpx's vectors are not at hand");
    };
    let frames = libvpx::frames(&folder);
    assert_eq!(frames.len(), 144);
    let mut entries = 0;
    for frame in &frames {
        let case = &frame.case;
        let levels = level_table(&case.loop_filter(), &case.segmentation()).unwrap();
        for i in (0..64).filter(|&i| frame.levels[i] != libvpx::OPEN) {
            assert_eq!(levels[i], frame.levels[i], "{}, entry {i}", frame.name);
            entries += 1;
        }
    }
    say(&format!("{} frames, {entries} entries equal libvpx's", frames.len()));
}

#[test]
fn lines_equal() {
    let Some(folder) = libvpx::folder() else {
        return say("passed over: libvpx's vectors are not at hand");
    };
    let lines = libvpx::lines(&folder);
    assert_eq!(lines.len(), 24_000);
    let mut arms = [0; 4];
    for (i, libvpx::Filtered { line: case, after }) in lines.iter().enumerate() {
        let mut taps = case.taps;
        assert_eq!(line(&mut taps, case.depth, case.size, case.strength), Ok(()), "line {i}");
        assert_eq!(taps, *after, "line {i}, {case:?}");
        if case.depth == 8 {
            let mut bytes = case.taps.map(|tap| tap as u8);
            assert_eq!(line_bytes(&mut bytes, 8, case.size, case.strength), Ok(()), "line {i}");
            assert_eq!(bytes.map(u16::from), *after, "line {i}, {case:?}");
        }
        arms[case.arm() as usize] += 1;
    }
    say(&format!("{} lines equal libvpx's; none, narrow, six, fourteen: {arms:?}", lines.len()));
}

#[test]
fn cells_equal() {
    let Some(folder) = libvpx::folder() else {
        return say("passed over: libvpx's vectors are not at hand");
    };
    let mut cells = 0;
    for libvpx in &libvpx::frames(&folder) {
        let (frame, name) = (&libvpx.frame, &libvpx.name);
        for base in (0..frame.mi_rows).step_by(8) {
            let part = libvpx.row(base);
            let mut words = vec![0; part.cells()];
            assert_eq!(row(&part.info(), &part.levels, frame, base, &mut words), Ok(()), "{name}");
            for (word, expected) in words.iter().zip(&libvpx.cells[base * frame.mi_cols..]) {
                let ours = cell(*word);
                let expected = (true, expected.level, expected.uvtx);
                assert_eq!((ours.present, ours.level, ours.uvtx), expected, "{name}, row {base}");
                cells += 1;
            }
        }
    }
    say(&format!("{cells} cells have libvpx's level and chroma transform"));
}

/// Which positions are filtered, and at which size.
#[test]
fn edges_equal() {
    let Some(folder) = libvpx::folder() else {
        return say("passed over: libvpx's vectors are not at hand");
    };
    let (mut positions, mut filtered) = (0, 0);
    for frame in &libvpx::frames(&folder) {
        for (plane, pass) in [(0, 0), (0, 1), (1, 0), (1, 1), (2, 0), (2, 1)] {
            for (x, y, call) in frame.calls(plane, pass) {
                let (at, cell) = frame.position(plane, pass, x, y);
                let facts = edge(&at).unwrap();
                let is_filtered = facts.apply_filter && cell.level > 0;
                let ours = if is_filtered { facts.filter_size * 64 + cell.level } else { 0 };
                assert_eq!(ours, call, "{}, plane {plane}, {at:?}", frame.name);
                positions += 1;
                filtered += usize::from(is_filtered);
            }
        }
    }
    say(&format!("{positions} positions are filtered as libvpx's, {filtered} of them at all"));
}
