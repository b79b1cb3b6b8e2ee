//! Bytes in, bytes out: what the program `sheet` prints for a record file, and a reader of sheets for a sheet.

use crate::call::Call;
use crate::quantify::{quantify, Quantified};
use crate::record_reader::read_record;
use crate::refusal::Refusal;
use crate::sheet::{read_sheet, sheet_text};

pub fn answer(input: &[u8], row: u64) -> Result<Quantified, Refusal> {
    quantify(&Call::of(&read_record(input, row)?))
}

pub fn text(answer: &Result<Quantified, Refusal>) -> String {
    match answer {
        Ok(quantified) => sheet_text(&quantified.figures.numbers()),
        Err(refusal) => refusal.text(),
    }
}

/// The sheet again, or refusal 10.
pub fn sheet_report(input: &[u8]) -> String {
    match read_sheet(input) {
        Ok(numbers) => sheet_text(&numbers),
        Err(offset) => Refusal::new(10, 0, offset).text(),
    }
}

/// Every interval's outcome, flow used and CH4 used, which the sheet does not show.
pub fn rows_text(quantified: &Quantified) -> String {
    let mut text = String::new();
    for (device, rows) in quantified.rows.iter().enumerate() {
        for i in 0..rows.outcome.len() {
            text += &format!("{device} {i} {} {} {}\n", rows.outcome[i], rows.flow[i], rows.ch4[i]);
        }
    }
    text
}
