//! libvpx's frames have every profile, depth and subsampling of VP9, and in each of them every plane and pass
//! filters something.

use differential::{libvpx, say};

/// Profile, depth, and subsampling of columns and of rows: all that a stream can have.
const KINDS: [(u8, u8, u8, u8); 12] = [
    (0, 8, 1, 1),
    (1, 8, 1, 0),
    (1, 8, 0, 1),
    (1, 8, 0, 0),
    (2, 10, 1, 1),
    (2, 12, 1, 1),
    (3, 10, 1, 0),
    (3, 10, 0, 1),
    (3, 10, 0, 0),
    (3, 12, 1, 0),
    (3, 12, 0, 1),
    (3, 12, 0, 0),
];

fn kind(frame: &libvpx::Frame) -> (u8, u8, u8, u8) {
    (frame.profile, frame.frame.bit_depth, frame.frame.sub_x, frame.frame.sub_y)
}

/// How many positions are filtered, by plane and pass.
fn filtered(frames: &[&libvpx::Frame]) -> [[usize; 2]; 3] {
    [0, 1, 2].map(|plane| {
        [0, 1].map(|pass| {
            let calls = frames.iter().flat_map(|frame| frame.calls(plane, pass));
            calls.filter(|&(_, _, call)| call > 0).count()
        })
    })
}

#[test]
fn kinds_are_covered() {
    let Some(folder) = libvpx::folder() else {
        return say("passed over: libvpx's vectors are not at hand");
    };
    let (frames, unfiltered) = libvpx::frames_and_unfiltered(&folder);
    let mut of_kinds = 0;
    for of_kind in KINDS {
        let frames: Vec<_> = frames.iter().filter(|frame| kind(frame) == of_kind).collect();
        let changed = frames.iter().filter(|frame| frame.before != frame.after).count();
        let filtered = filtered(&frames);
        let (profile, depth, sub_x, sub_y) = of_kind;
        let name = format!("profile {profile}, depth {depth}, subsampling {sub_x} {sub_y}");
        assert!(changed > 0, "{name}: no frame is changed");
        assert!(!filtered.as_flattened().contains(&0), "{name}: {filtered:?}");
        let all: usize = filtered.as_flattened().iter().sum();
        let frames = frames.len();
        say(&format!("{name}: {frames} frames, {changed} changed, {all} positions filtered"));
        of_kinds += frames;
    }
    assert_eq!(of_kinds, frames.len(), "frames of no kind");
    say(&format!("{of_kinds} frames; {unfiltered} of filter level 0 are left out"));
}
