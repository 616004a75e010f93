//! Arguments of the level table: the document's cases and random ones.

use crate::random::Random;
use crate::returned::Lists;
use springspade::{LoopFilter, Segmentation};

#[derive(Debug, Clone, Copy, PartialEq, Eq)]
pub struct Case {
    pub level: u8,
    pub delta_enabled: bool,
    pub delta_update: bool,
    /// Where a delta is absent, its value must not matter.
    pub deltas: [i8; 6],
    pub present: [bool; 6],
    pub seg_enabled: bool,
    pub abs_or_delta_update: bool,
    pub feature_enabled: [[bool; 4]; 8],
    pub feature_data: [[i16; 4]; 8],
}

/// The segmentation feature that sets the level.
pub const SEG_LVL_ALT_L: usize = 1;

/// Level 40, deltas enabled, not updated and absent, no segments.
pub const LEVEL_40: Case = Case {
    level: 40,
    delta_enabled: true,
    delta_update: false,
    deltas: [0; 6],
    present: [false; 6],
    seg_enabled: false,
    abs_or_delta_update: false,
    feature_enabled: [[false; 4]; 8],
    feature_data: [[0; 4]; 8],
};

pub const LEVEL_31: Case = Case { level: 31, ..LEVEL_40 };

pub const UPDATED_NOT_ENABLED: Case = Case { delta_enabled: false, delta_update: true, ..LEVEL_40 };

/// The segment of `SEGMENT_20` that has a datum.
pub const SEGMENT: usize = 3;

/// Level 40 with the absolute datum 20 for one segment.
pub const SEGMENT_20: Case = {
    let mut case = LEVEL_40;
    case.seg_enabled = true;
    case.abs_or_delta_update = true;
    case.feature_enabled[SEGMENT][SEG_LVL_ALT_L] = true;
    case.feature_data[SEGMENT][SEG_LVL_ALT_L] = 20;
    case
};

impl Case {
    /// A random case that is not refused.
    pub fn random(random: &mut Random) -> Case {
        Case {
            level: random.between(0, 63) as u8,
            delta_enabled: random.flag(),
            delta_update: random.flag(),
            deltas: [(); 6].map(|()| delta(random)),
            present: [(); 6].map(|()| random.flag()),
            seg_enabled: random.flag(),
            abs_or_delta_update: random.flag(),
            feature_enabled: [[(); 4]; 8].map(|s| s.map(|()| random.flag())),
            feature_data: [[(); 4]; 8].map(|s| s.map(|()| datum(random))),
        }
    }

    /// Whether the level feature is active for some segment.
    pub fn segments_active(&self) -> bool {
        self.seg_enabled && self.feature_enabled.iter().any(|s| s[SEG_LVL_ALT_L])
    }

    pub fn lists(&self) -> Lists<'_> {
        Lists {
            level: self.level,
            delta_enabled: self.delta_enabled,
            delta_update: self.delta_update,
            deltas: &self.deltas,
            present: &self.present,
            seg_enabled: self.seg_enabled,
            abs_or_delta_update: self.abs_or_delta_update,
            feature_enabled: self.feature_enabled.as_flattened(),
            feature_data: self.feature_data.as_flattened(),
        }
    }

    pub fn loop_filter(&self) -> LoopFilter {
        let delta = |i: usize| self.present[i].then_some(self.deltas[i]);
        LoopFilter {
            level: self.level,
            delta_enabled: self.delta_enabled,
            delta_update: self.delta_update,
            ref_deltas: [0, 1, 2, 3].map(delta),
            mode_deltas: [4, 5].map(delta),
        }
    }

    pub fn segmentation(&self) -> Segmentation {
        Segmentation {
            enabled: self.seg_enabled,
            abs_or_delta_update: self.abs_or_delta_update,
            feature_enabled: self.feature_enabled,
            feature_data: self.feature_data,
        }
    }
}

fn delta(random: &mut Random) -> i8 {
    match random.between(0, 2) {
        0 => random.one_of(&[-128, -64, -63, -1, 0, 1, 63, 64, 127]),
        1 => random.between(-16, 16) as i8,
        _ => random.number() as i8,
    }
}

fn datum(random: &mut Random) -> i16 {
    match random.between(0, 7) {
        0 => i16::MIN,
        1 => i16::MAX,
        2 => random.number() as i16,
        _ => random.between(-64, 64) as i16,
    }
}
