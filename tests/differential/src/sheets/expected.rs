//! The text that document 01 asks for: its refusals, and the runs.

use super::Sheet;
use super::runs::{Run, runs};
use crate::cells::unpacked;
use springspade::Refused;

/// The whole text of any bytes.
pub fn expected(bytes: &[u8]) -> String {
    text(answer(bytes))
}

/// A sheet that is accepted with its runs, or its refusal.
pub fn answer(bytes: &[u8]) -> Result<(Sheet, Vec<Run>), Refused> {
    let sheet = Sheet::read(bytes).ok_or(Refused { number: 7, place: 0 })?;
    header(&sheet)?;
    words(&sheet)?;
    let runs = runs(&sheet.as_pass())?;
    Ok((sheet, runs))
}

/// 17 before the rest, which are in number order.
fn header(sheet: &Sheet) -> Result<(), Refused> {
    let is_size = |mi: usize| (1..=8192).contains(&mi);
    let tests = [
        (17, sheet.spare != 0 || sheet.mi_cols > 1024),
        (2, sheet.depth_code > 2),
        (4, !is_size(sheet.mi_cols) || !is_size(sheet.mi_rows)),
        (5, 8 * sheet.row_over_8 >= sheet.mi_rows),
        (7, sheet.words.len() < sheet.row_cells()),
        (9, sheet.plane > 2),
        (10, 8 * sheet.col_over_8 >= sheet.mi_cols),
    ];
    match tests.into_iter().find(|&(_, is_refused)| is_refused) {
        Some((number, _)) => Err(Refused { number, place: 0 }),
        None => Ok(()),
    }
}

/// The whole row's words count, those behind it do not.
fn words(sheet: &Sheet) -> Result<(), Refused> {
    let is_bad = |&word: &u32| {
        let (cell, zeros) = unpacked(word);
        zeros != 0 || !cell.present && cell.level != 0
    };
    match sheet.words[..sheet.row_cells()].iter().position(is_bad) {
        Some(place) => Err(Refused { number: 11, place: place as u32 }),
        None => Ok(()),
    }
}

fn text(answer: Result<(Sheet, Vec<Run>), Refused>) -> String {
    let (sheet, runs) = match answer {
        Ok(accepted) => accepted,
        Err(Refused { number, place }) => return format!("refused {number} place {place}\n"),
    };
    let Sheet { plane, pass, row_over_8, col_over_8, .. } = sheet;
    let (row, col) = (8 * row_over_8, 8 * col_over_8);
    let mut text = format!("pass {pass} plane {plane} row {row} col {col}\n");
    for Run { edge, first, count, size, level } in runs {
        text += &format!("{edge} {first} {count} {size} {level}\n");
    }
    text
}
