//! Refusals.

use crate::c::Refusal;
use std::fmt;

/// A refused call: which of the tests failed, and where. The lowest number is given, with the smallest place. All that
/// was lent to the call is as it was before.
#[derive(Debug, Clone, Copy, PartialEq, Eq, Hash)]
pub struct Refused {
    /// 1 to 17; [`meaning`](Refused::meaning) says what it stands for.
    pub number: u32,
    /// Where: an entry, a cell, a sample or a position, counted from 0. 0 for numbers that have no place.
    pub place: u32,
}

impl Refused {
    /// What was refused, in words.
    #[must_use]
    pub fn meaning(&self) -> &'static str {
        match self.number {
            1 => "sharpness above 7",
            2 => "depth other than 8, 10, 12; over bytes other than 8",
            3 => "a subsampling flag above 1",
            4 => "mi_cols or mi_rows 0 or above 8,192",
            5 => "mi_row no multiple of 8, or not below mi_rows",
            6 => "level above 63",
            7 => "a list or a sheet that is too short",
            8 => "block size above 12, transform above 3, skip above 1",
            9 => "plane above 2, pass above 1",
            10 => "mi_col no multiple of 8, or not below mi_cols",
            11 => {
                "a cell's zero bit set, its level not 0 while absent, or a record's field too large"
            }
            12 => "window shape wrong",
            13 => "sample not below 2 to the depth",
            14 => "a position that is to be filtered reads a cell without level",
            15 => "filter size above 2",
            16 => "edge or position beyond the superblock's grid",
            17 => "a sheet's spare bits set, or its mi_cols above 1,024",
            _ => "unknown",
        }
    }
}

impl fmt::Display for Refused {
    fn fmt(&self, f: &mut fmt::Formatter) -> fmt::Result {
        write!(f, "refused {} place {}: {}", self.number, self.place, self.meaning())
    }
}

impl std::error::Error for Refused {}

/// The C functions return number 0 where they accept.
pub(crate) fn accepted(Refusal { number, place }: Refusal) -> Result<(), Refused> {
    if number == 0 { Ok(()) } else { Err(Refused { number, place }) }
}
