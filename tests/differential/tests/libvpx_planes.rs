//! Whole frames through our level table, row and pass against libvpx's planes.

use differential::libvpx::planes::{bases, difference, ours, ours_over_bytes, passes};
use differential::{libvpx, say};

#[test]
fn planes_equal() {
    let Some(folder) = libvpx::folder() else {
        return say("passed over: libvpx's vectors are not at hand");
    };
    let frames = libvpx::frames(&folder);
    let (mut all, mut changed, mut bytes) = (0, 0, 0);
    for frame in &frames {
        assert_eq!(difference(frame, &ours(frame), &frame.after), None);
        if frame.frame.bit_depth == 8 {
            assert_eq!(difference(frame, &ours_over_bytes(frame), &frame.after), None);
            bytes += 1;
        }
        all += bases(frame).flat_map(|base| passes(frame, base)).count();
        changed += usize::from(frame.before != frame.after);
    }
    assert!(changed >= frames.len() / 2, "{changed} frames are changed");
    assert!(bytes >= 1, "there is no frame of depth 8");
    let frames = format!("{} frames, {changed} of them changed", frames.len());
    say(&format!("{frames}, {all} passes: ours give libvpx's planes, {bytes} over bytes too"));
}
