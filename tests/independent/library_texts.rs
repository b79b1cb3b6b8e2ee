//! The library's functions that read and write texts, each as one more `Answerer`. What a call may not write is
//! compared too.

use crate::answerer::Answerer;
use crate::compare::{ask_record, Asked};
use crate::image::{Array, Image};
use crate::library::{Function, Library};
use crate::refusal::Refusal;
use crate::report;
use crate::rng::Rng;

/// A sheet, or a refusal's three lines, is at most so long.
const TEXT: usize = 465;

/// `cmm_report` with rows of so many entries: its text, and after a sheet the result rows.
pub struct Records<'a> {
    pub library: &'a Library,
    pub row: usize,
}

const ROWS: [&str; 8] = ["flow", "content", "temp", "press", "status", "outcome", "flow_used", "content_used"];

impl Records<'_> {
    /// What stood in the rows before is drawn: no answer may depend on it.
    fn lent(&self, input: &[u8]) -> Image {
        let rng = Rng::new(self.row as u64, input.len() as u64);
        let wide = |name| Array::drawn::<u16>(&rng, name, self.row);
        let bytes = |name| Array::drawn::<u8>(&rng, name, self.row);
        let press = Array::drawn::<u32>(&rng, "press", self.row);
        let arrays = vec![
            Array::of("t", input),
            Array::drawn::<u8>(&rng, "out", TEXT),
            press,
            wide("flow"),
            wide("content"),
            wide("temp"),
            wide("flow_used"),
            wide("content_used"),
            bytes("status"),
            bytes("outcome"),
        ];
        Image::new(&rng, arrays)
    }

    fn words(&self, image: &Image, input: &[u8]) -> Vec<u64> {
        let rows = ROWS.iter().flat_map(|name| [image.start(name), self.row as u64]);
        [image.start("t"), input.len() as u64].into_iter().chain(rows).chain([image.start("out")]).collect()
    }
}

impl Answerer for Records<'_> {
    fn answer(&self, input: &[u8]) -> Result<Vec<u8>, String> {
        let before = self.lent(input);
        let (length, bytes) = self.library.call(Function::Report, &self.words(&before, input), &before.bytes)?;
        let after = before.with(bytes);
        let out = after.read::<u8>("out");
        let Some(text) = out.get(..length as usize) else {
            return Err(format!("a text of {length} bytes"));
        };
        let answer = String::from_utf8_lossy(text).to_string();
        let devices = line(&answer, "devices=").unwrap_or(0);
        let intervals = line(&answer, "intervals=").unwrap_or(0);
        // What the five series hold afterwards is cmm_read_record's, and is not asked here.
        let mut allowed = before;
        for name in &ROWS[..5] {
            allowed.copy(name, &after, usize::MAX);
        }
        for name in &ROWS[5..] {
            allowed.copy(name, &after, devices * intervals);
        }
        allowed.write("out", text);
        match allowed.difference(&after) {
            Some(difference) => Err(difference),
            None => Ok((answer + &rows_text(&after, devices, intervals)).into_bytes()),
        }
    }
}

/// As `report::rows_text` has it.
fn rows_text(image: &Image, devices: usize, intervals: usize) -> String {
    let (outcome, flow, content) =
        (image.read::<u8>("outcome"), image.read::<u16>("flow_used"), image.read::<u16>("content_used"));
    let line = |entry: usize| {
        let (device, interval) = (entry / intervals, entry % intervals);
        format!("{device} {interval} {} {} {}\n", outcome[entry], flow[entry], content[entry])
    };
    (0..devices * intervals).map(line).collect()
}

/// The number of a sheet's line; nothing if the text has no such line.
fn line(text: &str, key: &str) -> Option<usize> {
    text.lines().find_map(|line| line.strip_prefix(key)).and_then(|value| value.parse().ok())
}

/// The own answer to a file, with the result rows after a sheet.
pub fn ask(seed: u64, number: usize, row: u64) -> Asked {
    let mut asked = ask_record(seed, number, row);
    if let Ok(quantified) = report::answer(&asked.bytes, row) {
        asked.expected += &report::rows_text(&quantified);
    }
    asked
}

/// `cmm_read_sheet`, and what `cmm_write_sheet` makes of the figures that it gives.
pub struct Sheets<'a> {
    pub library: &'a Library,
}

impl Answerer for Sheets<'_> {
    fn answer(&self, input: &[u8]) -> Result<Vec<u8>, String> {
        let rng = Rng::new(0, input.len() as u64);
        let arrays = vec![
            Array::of("t", input),
            Array::drawn::<u64>(&rng, "amounts", 13),
            Array::drawn::<i64>(&rng, "balances", 2),
            Array::drawn::<u64>(&rng, "offset", 1),
        ];
        let mut expected = Image::new(&rng, arrays);
        let at = |name| expected.start(name);
        let words = [at("t"), input.len() as u64, at("amounts"), at("balances"), at("offset")];
        let (number, bytes) = self.library.call(Function::ReadSheet, &words, &expected.bytes)?;
        let after = expected.with(bytes);
        expected.copy("offset", &after, 1);
        if number == 0 {
            expected.copy("amounts", &after, 13);
            expected.copy("balances", &after, 2);
        }
        let offset = after.read::<u64>("offset")[0];
        match (number, expected.difference(&after)) {
            (_, Some(difference)) => Err(difference),
            (10, None) => Ok(Refusal::new(10, 0, offset as usize).text().into_bytes()),
            (0, None) if offset == 0 => self.written(&rng, &after.read("amounts"), &after.read("balances")),
            _ => Err(format!("read {number}, offset {offset}")),
        }
    }
}

impl Sheets<'_> {
    /// The text of the figures.
    fn written(&self, rng: &Rng, amounts: &[u64], balances: &[i64]) -> Result<Vec<u8>, String> {
        let arrays = vec![
            Array::of("amounts", amounts),
            Array::of("balances", balances),
            Array::drawn::<u8>(rng, "buf", TEXT),
            Array::drawn::<u64>(rng, "size", 1),
        ];
        let mut expected = Image::new(rng, arrays);
        let at = |name| expected.start(name);
        let words = [at("amounts"), at("balances"), at("buf"), TEXT as u64, at("size")];
        let (number, bytes) = self.library.call(Function::WriteSheet, &words, &expected.bytes)?;
        let after = expected.with(bytes);
        let size = after.read::<u64>("size")[0] as usize;
        if number != 0 || size > TEXT {
            return Err(format!("written {number}, {size} bytes"));
        }
        expected.copy("size", &after, 1);
        expected.copy("buf", &after, size);
        match expected.difference(&after) {
            Some(difference) => Err(difference),
            None => Ok(after.read("buf")[..size].to_vec()),
        }
    }
}
