//! The pass over bytes.

use super::Pass;
use crate::returned::Returned;
use springspade::{Frame, cell_bytes, pass_bytes, pass_bytes_unchecked};

/// Stands before and behind what is lent: 64 bytes, and more where the samples are to stand at another address.
const GUARD: [u8; 80] = [0xbe; 80];

impl Pass {
    /// The pass as it can be made over bytes: at depth 8 with the low bytes of its samples. A depth that no pass has stays.
    pub fn of_bytes(&self) -> Pass {
        let mut pass = self.clone();
        if matches!(pass.frame.bit_depth, 10 | 12) {
            pass.frame = Frame { bit_depth: 8, ..pass.frame };
        }
        pass.samples.iter_mut().for_each(|sample| *sample %= 256);
        pass
    }

    /// The cells as bytes.
    pub fn cell_bytes(&self) -> Vec<u8> {
        cell_bytes(&self.cells)
    }

    /// What ours returns over bytes, and the lent samples after it. Those beside them are left. The first sample stands
    /// `skew` bytes, at most 16, behind a multiple of 16.
    pub fn ours_by_bytes(&self, cells: &[u8], skew: usize) -> (Returned, Vec<u16>) {
        let Pass { frame, at, window, .. } = self;
        self.guarded_bytes(skew, |samples| pass_bytes(samples, window, cells, frame, at).into())
    }

    /// The lent samples after the pass over bytes without its tests; none where that with its tests is refused.
    #[expect(unsafe_code, reason = "the pass with its tests accepts the same first")]
    pub fn ours_by_bytes_unchecked(&self, skew: usize) -> Option<Vec<u16>> {
        self.ours_by_bytes(&self.cell_bytes(), skew).0.accepted().ok()?;
        let Pass { frame, at, cells, window, .. } = self;
        let run = |samples: &mut [u8]| {
            // SAFETY: the call above was accepted, with a copy of the same samples and the same words as bytes.
            unsafe { pass_bytes_unchecked(samples, window, cells, frame, at) }
        };
        Some(self.guarded_bytes(skew, run).1)
    }

    /// Runs on the samples as bytes, which they must be.
    fn guarded_bytes<T>(&self, skew: usize, run: impl FnOnce(&mut [u8]) -> T) -> (T, Vec<u16>) {
        let bytes: Result<Vec<u8>, _> = self.samples.iter().map(|&s| u8::try_from(s)).collect();
        let (returned, after) = self.between(&GUARD[..64 + skew], &bytes.unwrap(), run);
        (returned, after.into_iter().map(u16::from).collect())
    }
}
