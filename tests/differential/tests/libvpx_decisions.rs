//! What our pass filters in whole frames against libvpx's call maps: each position of each plane and pass,
//! with its size and level. The decisions are read off the run sheet, whose runs are the pass's.

use differential::libvpx::planes::{bases, passes, words};
use differential::passes::subsampling;
use differential::sheets::Sheet;
use differential::sheets::runs::Run;
use differential::{libvpx, say};
use springspade::{Frame, Superblock};
use std::collections::BTreeMap;

/// What is filtered of a plane in a pass, at its x and y: size * 64 + level, as in a call map.
type Filtered = BTreeMap<(usize, usize), u8>;

fn sheet(frame: &Frame, words: &[u32], at: &Superblock) -> Sheet {
    Sheet {
        mi_cols: frame.mi_cols,
        mi_rows: frame.mi_rows,
        sub_x: frame.sub_x,
        sub_y: frame.sub_y,
        sharpness: frame.sharpness,
        depth_code: (frame.bit_depth - 8) / 2,
        plane: at.plane,
        pass: at.pass,
        row_over_8: at.mi_row / 8,
        col_over_8: at.mi_col / 8,
        spare: 0,
        words: words.to_vec(),
    }
}

/// The runs of a sheet's text, which is that of a pass that is accepted.
fn runs(text: &str, at: &Superblock) -> Vec<Run> {
    let Superblock { mi_row: row, mi_col: col, plane, pass } = at;
    let mut lines = text.lines();
    let head = format!("pass {pass} plane {plane} row {row} col {col}");
    assert_eq!(lines.next(), Some(head.as_str()), "{text}");
    let run = |line: &str| {
        let numbers: Vec<usize> = line.split(' ').map(|n| n.parse().unwrap()).collect();
        let [edge, first, count, size, level] = numbers[..] else { panic!("{line}") };
        Run { edge, first, count, size: size as u8, level: level as u8 }
    };
    lines.map(run).collect()
}

/// Adds the positions of a run. None may be there already.
fn add(filtered: &mut Filtered, frame: &Frame, at: &Superblock, run: &Run) {
    let (sub_x, sub_y) = subsampling(frame, at.plane);
    let (left, top) = ((8 * at.mi_col) >> sub_x, (8 * at.mi_row) >> sub_y);
    for i in run.first..run.first + run.count {
        let across = 4 * run.edge;
        let (right, down) = if at.pass == 0 { (across, i) } else { (i, across) };
        let twice = filtered.insert((left + right, top + down), run.size * 64 + run.level);
        assert_eq!(twice, None, "{at:?}, {run:?}, position {i}");
    }
}

/// What ours filters in a frame, by plane and pass, and in how many runs.
fn decisions(frame: &libvpx::Frame) -> ([[Filtered; 2]; 3], usize) {
    let mut filtered: [[Filtered; 2]; 3] = Default::default();
    let mut count = 0;
    for base in bases(frame) {
        let words = words(frame, base);
        for at in passes(frame, base) {
            let text = springspade::sheet(&sheet(&frame.frame, &words, &at).bytes());
            for run in runs(&text, &at) {
                let filtered = &mut filtered[at.plane as usize][at.pass as usize];
                add(filtered, &frame.frame, &at, &run);
                count += 1;
            }
        }
    }
    (filtered, count)
}

#[test]
fn decisions_equal() {
    let Some(folder) = libvpx::folder() else {
        return say("passed over: libvpx's vectors are not at hand");
    };
    let (mut positions, mut runs) = (0, 0);
    // Positions that are filtered, by size.
    let mut sizes = [0; 3];
    for frame in &libvpx::frames(&folder) {
        let (mut ours, count) = decisions(frame);
        runs += count;
        for (plane, pass) in [(0, 0), (0, 1), (1, 0), (1, 1), (2, 0), (2, 1)] {
            let ours = &mut ours[plane as usize][pass as usize];
            for (x, y, call) in frame.calls(plane, pass) {
                let place = format!("{}, plane {plane}, pass {pass}, {x}, {y}", frame.name);
                assert_eq!(ours.remove(&(x, y)).unwrap_or(0), call, "{place}");
                positions += 1;
                if call > 0 {
                    sizes[call as usize / 64] += 1;
                }
            }
            assert!(ours.is_empty(), "{}, plane {plane}, pass {pass}: {ours:?}", frame.name);
        }
    }
    let filtered: usize = sizes.iter().sum();
    let decided = format!("{filtered} are filtered, in {runs} runs, by size {sizes:?}");
    say(&format!("{positions} positions are decided as libvpx's, with size and level; {decided}"));
}
