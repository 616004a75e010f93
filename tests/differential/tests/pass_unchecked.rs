//! The pass without its tests leaves the samples that the pass with them leaves.

use differential::passes::Pass;
use differential::random::Random;
use differential::say;

const PASSES: usize = 12_000;

#[test]
fn unchecked_equals_checked() {
    let mut random = Random(50);
    let (mut accepted, mut changed) = (0, 0);
    for _ in 0..PASSES {
        let pass = Pass::random(&mut random);
        let Some(after) = pass.ours_unchecked() else { continue };
        let (_, expected) = pass.ours();
        assert!(after == expected, "{}", pass.difference(&after, &expected));
        accepted += 1;
        changed += usize::from(after != pass.samples);
    }
    assert!(changed >= PASSES / 4, "{changed} of {PASSES} passes change a sample");
    let passes = format!("{accepted} passes without tests leave what those with them leave");
    say(&format!("{passes}, {changed} of them change samples"));
}
