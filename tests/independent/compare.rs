//! Many files or calls, each asked of the thing under test and of the own implementation; answers compared byte by
//! byte.

use crate::answerer::Answerer;
use crate::possible_text::{sheet_offset, wrong_line};
use crate::protocol::{MOST_DEVICES, MOST_INTERVALS};
use crate::quantify::Quantified;
use crate::refusal::{is_given, Refusal};
use crate::refusals::READINGS;
use crate::{damaged_sheets, generate, litre_kinds, reading_kinds, report, sheet};
use std::collections::BTreeMap;
use std::path::Path;
use std::sync::atomic::{AtomicUsize, Ordering};
use std::sync::Mutex;

/// Where that is kept on which the answers differ.
const KEPT: &str = "target/independent";

const MOST_KEPT: usize = 10;

/// From this many on, every answer and every outcome must have occurred.
pub const ENOUGH: usize = 2_000;

/// A file with the own answer to it. `kinds` says what sort of answer it is, for the summary.
pub struct Asked {
    pub class: &'static str,
    pub bytes: Vec<u8>,
    pub expected: String,
    pub kinds: Vec<String>,
    /// The two own ways of finding what is wrong give different answers.
    pub doubt: bool,
}

pub fn ask_record(seed: u64, number: usize, row: u64) -> Asked {
    let file = generate::generate(seed, number, row);
    let answer = report::answer(&file.bytes, row);
    let line = match &answer {
        Err(refusal) if refusal.number == 12 => Some(refusal.place as usize),
        _ => None,
    };
    Asked {
        class: file.class,
        expected: report::text(&answer),
        kinds: [record_kinds(&answer), reading_kinds::of_file(&file.bytes, row, &answer)].concat(),
        doubt: wrong_line(&file.bytes, row) != line,
        bytes: file.bytes,
    }
}

pub fn record_kinds(answer: &Result<Quantified, Refusal>) -> Vec<String> {
    match answer {
        Err(refusal) => vec![format!("refusal {:2}", refusal.number)],
        Ok(quantified) => sheet_kinds(quantified),
    }
}

pub fn sheet_kinds(quantified: &Quantified) -> Vec<String> {
    let mut kinds = vec!["sheet".to_string()];
    let met = (0..10).filter(|&outcome| quantified.with_outcome(outcome) > 0);
    kinds.extend(met.map(|outcome| format!("sheet, outcome {outcome}")));
    if quantified.figures.reduction_mg < 0 {
        kinds.push("sheet, negative".to_string());
    }
    kinds.extend(litre_kinds::of_sheet(quantified));
    kinds
}

/// Kinds of answer that any long run must meet. A row for the longest record leaves no room for 13.
pub fn record_kinds_wanted(row: u64) -> Vec<String> {
    let short_row = row < MOST_INTERVALS as u64 * MOST_DEVICES as u64;
    let refusals = [1, 2, 4, 5, 6, 7, 9, 12, 13].into_iter().chain(READINGS);
    let kinds = kinds_wanted(refusals.filter(|&number| number != 13 || short_row));
    [kinds, reading_kinds::wanted()].concat()
}

/// These refusals, every outcome, a negative reduction, and what is wanted of litres.
pub fn kinds_wanted(refusals: impl Iterator<Item = u32>) -> Vec<String> {
    let outcomes = (0..10).map(|outcome| format!("sheet, outcome {outcome}"));
    let negative = "sheet, negative".to_string();
    let refusals = refusals.map(|number| format!("refusal {number:2}"));
    refusals.chain(outcomes).chain([negative]).chain(litre_kinds::wanted()).collect()
}

pub fn ask_sheet(seed: u64, number: usize) -> Asked {
    let (class, bytes) = damaged_sheets::generate(seed, number);
    let read = sheet::read_sheet(&bytes);
    Asked {
        class,
        expected: report::sheet_report(&bytes),
        kinds: vec![if read.is_ok() { "sheet".to_string() } else { "refusal 10".to_string() }],
        doubt: sheet_offset(&bytes) != read.err(),
        bytes,
    }
}

/// What came of one file or call. `kinds` says what sort of answer it got, for the summary.
pub struct Judged {
    pub class: &'static str,
    pub kinds: Vec<String>,
    pub difference: Option<String>,
}

#[derive(Default)]
pub struct Summary {
    classes: BTreeMap<&'static str, (usize, usize)>,
    kinds: BTreeMap<String, usize>,
    /// Number of the file or call, and what differs.
    differences: BTreeMap<usize, String>,
}

/// Judges each number below `count`, on all processors, and sums up.
pub fn compare(count: usize, judge: &(dyn Fn(usize) -> Judged + Sync)) -> Summary {
    let next = AtomicUsize::new(0);
    let summary = Mutex::new(Summary::default());
    let workers = std::thread::available_parallelism().map_or(1, |count| count.get());
    std::thread::scope(|scope| {
        for _ in 0..workers {
            scope.spawn(|| loop {
                let number = next.fetch_add(1, Ordering::Relaxed);
                if number >= count {
                    break;
                }
                let judged = judge(number);
                summary.lock().unwrap().add(number, judged);
            });
        }
    });
    summary.into_inner().unwrap()
}

/// Asks for a file, compares the answers, and keeps a file on which they differ.
pub fn judge_file(number: usize, asked: &Asked, answerer: &dyn Answerer) -> Judged {
    let difference = difference(asked, answerer).map(|difference| {
        let texts = [("input", &asked.bytes[..]), ("expected", asked.expected.as_bytes())];
        format!("{difference}; {}", keep(number, &texts))
    });
    Judged { class: asked.class, kinds: asked.kinds.clone(), difference }
}

fn difference(asked: &Asked, answerer: &dyn Answerer) -> Option<String> {
    if asked.doubt {
        return Some("the two own ways differ".to_string());
    }
    match answerer.answer(&asked.bytes) {
        Err(failure) => Some(failure),
        Ok(answer) if answer == asked.expected.as_bytes() => None,
        Ok(answer) => Some(first_difference(&asked.expected, &String::from_utf8_lossy(&answer))),
    }
}

/// Another number than the expected one; 0 is an accepted call's.
pub fn other_number(given: u64, expected: u64) -> String {
    let remark = if given == 0 || is_given(given) { "" } else { ", which is never given" };
    format!("number {given}{remark}, expected {expected}")
}

/// The first line that differs, of the expected text and of the answer.
pub fn first_difference(expected: &str, answer: &str) -> String {
    let (mut wanted, mut given) = (expected.split('\n'), answer.split('\n'));
    loop {
        let pair = (wanted.next(), given.next());
        if pair.0 != pair.1 || pair.0.is_none() {
            let shown: String = pair.1.unwrap_or("(nothing more)").chars().take(80).collect();
            let expected = pair.0.unwrap_or("(nothing more)");
            return format!("expected {expected:?}, answered {shown:?}{}", remark(&shown));
        }
    }
}

/// What is to be said of a line with a refusal's number that is not in use.
fn remark(line: &str) -> &'static str {
    let number = line.strip_prefix("refusal=").and_then(|number| number.parse().ok());
    if number.is_none_or(is_given) {
        ""
    } else {
        ", a number that is never given"
    }
}

impl Summary {
    fn add(&mut self, number: usize, judged: Judged) {
        let class = self.classes.entry(judged.class).or_default();
        class.0 += 1;
        for kind in judged.kinds {
            *self.kinds.entry(kind).or_default() += 1;
        }
        if let Some(difference) = judged.difference {
            class.1 += 1;
            self.differences.insert(number, format!("{}: {difference}", judged.class));
        }
    }

    /// Prints the whole, of files or calls; true if all is well.
    pub fn conclude(&self, what: &str, count: usize, wanted: &[String]) -> bool {
        self.conclude_from(ENOUGH, what, count, wanted)
    }

    /// The same where all that is wanted must have occurred in so many already.
    pub fn conclude_from(&self, enough: usize, what: &str, count: usize, wanted: &[String]) -> bool {
        println!("{:24} {what:>7} {:>9}", "class", "different");
        for (class, (all, different)) in &self.classes {
            println!("{class:24} {all:7} {different:9}");
        }
        for (kind, all) in &self.kinds {
            println!("answer: {kind:24} {all:7}");
        }
        for (number, difference) in self.differences.iter().take(10) {
            println!("number {number}: {difference}");
        }
        let lacking: Vec<&String> = wanted.iter().filter(|kind| !self.kinds.contains_key(*kind)).collect();
        let lacks = count >= enough && !lacking.is_empty();
        if lacks {
            println!("none of the {what} gave: {lacking:?}");
        }
        println!("{count} {what}, {} different", self.differences.len());
        self.differences.is_empty() && count > 0 && !lacks
    }
}

/// Keeps texts about what differs, each under its extension, and says where. After a few the rest is left out.
pub fn keep(number: usize, texts: &[(&str, &[u8])]) -> String {
    static COUNT: AtomicUsize = AtomicUsize::new(0);
    if COUNT.fetch_add(1, Ordering::Relaxed) >= MOST_KEPT {
        return "not kept".to_string();
    }
    let name = |extension: &str| Path::new(KEPT).join(format!("different-{number:06}.{extension}"));
    let write = |(extension, text): &(&str, &[u8])| std::fs::write(name(extension), text);
    match std::fs::create_dir_all(KEPT).and_then(|()| texts.iter().try_for_each(write)) {
        Ok(()) => format!("kept as {}", name("*").display()),
        Err(error) => format!("not kept: {error}"),
    }
}
