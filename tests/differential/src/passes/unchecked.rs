//! The pass without its tests.

use super::Pass;
use springspade::pass_unchecked;

impl Pass {
    /// The lent samples after it; none where the pass with its tests is refused. Those beside them are left.
    #[expect(unsafe_code, reason = "the pass with its tests accepts the same first")]
    pub fn ours_unchecked(&self) -> Option<Vec<u16>> {
        self.ours().0.accepted().ok()?;
        let Pass { frame, at, cells, window, .. } = self;
        let run = |samples: &mut [u16]| {
            // SAFETY: the call above was accepted, with a copy of the same samples.
            unsafe { pass_unchecked(samples, window, cells, frame, at) }
        };
        Some(self.guarded(run).1)
    }
}
