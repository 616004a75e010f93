//! What the C functions return, also where they accept, and with the values that they give on refusal.

use springspade::c::{self, Refusal};
use springspade::{EdgeFacts, Position, Refused, Strength};

/// Number and place of a refusal, both 0 where the call was accepted.
#[derive(Debug, Clone, Copy, PartialEq, Eq)]
pub struct Returned {
    pub number: u32,
    pub place: u32,
}

impl Returned {
    pub fn accepted(self) -> Result<(), Refused> {
        match self {
            Returned { number: 0, .. } => Ok(()),
            Returned { number, place } => Err(Refused { number, place }),
        }
    }
}

impl From<Result<(), Refused>> for Returned {
    fn from(answer: Result<(), Refused>) -> Returned {
        let Refused { number, place } = answer.err().unwrap_or(Refused { number: 0, place: 0 });
        Returned { number, place }
    }
}

impl From<Refusal> for Returned {
    fn from(Refusal { number, place }: Refusal) -> Returned {
        Returned { number, place }
    }
}

pub fn strength_returned(level: u8, sharpness: u8) -> (Returned, Strength) {
    let c::Strength { number, place, limit, blimit, thresh } =
        c::springspade_strength(level, sharpness);
    (Returned { number, place }, Strength { limit, blimit, thresh })
}

pub fn edge_returned(at: &Position) -> (Returned, EdgeFacts) {
    let e = c::springspade_edge(
        at.sub_x,
        at.sub_y,
        at.mi_cols,
        at.mi_rows,
        at.mi_row,
        at.mi_col,
        at.pass,
        at.edge,
        at.i,
        at.mi_size,
        at.tx_size,
        at.skip,
        at.ref_frame,
    );
    let facts = EdgeFacts {
        x: e.x,
        y: e.y,
        loop_col: e.loop_col,
        loop_row: e.loop_row,
        is_block_edge: e.is_block_edge,
        is_tx_edge: e.is_tx_edge,
        is_32_edge: e.is_32_edge,
        on_screen: e.on_screen,
        apply_filter: e.apply_filter,
        filter_size: e.filter_size,
    };
    (Returned { number: e.number, place: e.place }, facts)
}

/// The arguments of `level_table_into`, lists of any length.
#[derive(Debug, Clone, Copy)]
pub struct Lists<'a> {
    pub level: u8,
    pub delta_enabled: bool,
    pub delta_update: bool,
    /// Four by reference, then two by mode type.
    pub deltas: &'a [i8],
    pub present: &'a [bool],
    pub seg_enabled: bool,
    pub abs_or_delta_update: bool,
    /// At segment * 4 + feature.
    pub feature_enabled: &'a [bool],
    pub feature_data: &'a [i16],
}

/// The level table into the first 64 of `levels`.
#[inline]
#[allow(unsafe_code, reason = "the safe function has no lists that could be too short")]
pub fn level_table_into(lists: &Lists, levels: &mut [u8]) -> Returned {
    // SAFETY: each pointer goes with the length of its own slice.
    let refusal = unsafe {
        c::springspade_level_table(
            lists.level,
            lists.delta_enabled,
            lists.delta_update,
            lists.deltas.as_ptr(),
            lists.deltas.len(),
            lists.present.as_ptr(),
            lists.present.len(),
            lists.seg_enabled,
            lists.abs_or_delta_update,
            lists.feature_enabled.as_ptr(),
            lists.feature_enabled.len(),
            lists.feature_data.as_ptr(),
            lists.feature_data.len(),
            levels.as_mut_ptr(),
            levels.len(),
        )
    };
    refusal.into()
}
