//! The command `cmm sheet` and the program `sheet`, both asked about each file: the program's answer, and the command's
//! answer, exit status and words. Where the program's rows have room for the record, the two answer alike.

use crate::calendar::{days_of_month, Time};
use crate::compare::{first_difference, keep, kinds_wanted, record_kinds, Judged};
use crate::generate::{self, Generated};
use crate::possible_text::wrong_line;
use crate::process::{ask, Answered};
use crate::protocol::{MOST_DEVICES, MOST_INTERVALS, PROGRAM_ROW};
use crate::quantify::Quantified;
use crate::refusal::Refusal;
use crate::refusals::READINGS;
use crate::rng::Rng;
use crate::words::{tell, Owner, Told};
use crate::{reading_kinds, report, word_files};
use std::path::PathBuf;
use std::sync::Arc;
use std::time::{SystemTime, UNIX_EPOCH};

/// The command's rows hold the longest record.
pub const COMMAND_ROW: u64 = MOST_INTERVALS as u64 * MOST_DEVICES as u64;

const BY_THE_PROGRAM: &str = "program: refusal 13";

/// What the words of a refusal can differ in.
const WORDS: [&str; 25] = [
    "refusal  7, flow check", "refusal  7, CH4 check", "refusal  7, at", "refusal  7, drift",
    "refusal  7, no position left", "refusal  9, quantity", "refusal  9, factor", "refusal 12, text ends",
    "refusal 12, without line end", "refusal 12, cut line", "refusal 12, escaped byte", "refusal 12, no line due",
    "refusal 17, flow", "refusal 18, ch4", "refusal 19, temp", "refusal 20, press", "refusal 21, status",
    "refusal 17, flow, time", "refusal 18, ch4, time", "refusal 19, temp, time", "refusal 20, press, time",
    "refusal 21, status, time", "time of an interval", "time of a check", "no time: check past the end",
];

/// Kinds of answer that any long run must meet.
pub fn wanted() -> Vec<String> {
    let others = WORDS.iter().chain([&BY_THE_PROGRAM]).map(|kind| kind.to_string());
    let refusals = [1, 2, 4, 5, 6, 7, 9, 12].into_iter().chain(READINGS);
    kinds_wanted(refusals).into_iter().chain(others).chain(reading_kinds::wanted()).collect()
}

/// Both that are asked, and where the files are put that are given by name.
pub struct Both {
    pub program: Vec<String>,
    pub command: Vec<String>,
    pub directory: Directory,
}

/// A fresh directory, removed with all that is in it when this goes.
pub struct Directory(PathBuf);

impl Directory {
    pub fn new() -> std::io::Result<Directory> {
        let time = SystemTime::now().duration_since(UNIX_EPOCH).map_or(0, |time| time.as_nanos());
        let path = std::env::temp_dir().join(format!("independent-{}-{time}", std::process::id()));
        std::fs::create_dir(&path)?;
        Ok(Directory(path))
    }

    /// Its own name.
    pub fn name(&self) -> String {
        self.0.to_string_lossy().into_owned()
    }

    /// The name of a file in it.
    pub fn file(&self, name: &str) -> String {
        self.0.join(name).to_string_lossy().into_owned()
    }
}

impl Drop for Directory {
    fn drop(&mut self) {
        let _ = std::fs::remove_dir_all(&self.0);
    }
}

/// What both should answer, and how the command is asked.
struct Case {
    class: &'static str,
    bytes: Arc<Vec<u8>>,
    by_program: Result<Quantified, Refusal>,
    by_command: Result<Quantified, Refusal>,
    /// Nothing of a sheet.
    sentence: Option<String>,
    kinds: Vec<String>,
    /// The file by its name, if it is not on standard input.
    file: Option<String>,
    /// The words after `sheet`.
    arguments: Vec<String>,
}

/// One file in four is made for the words.
fn generated(seed: u64, number: usize, row: u64) -> Generated {
    match number % 4 {
        3 => word_files::generate(seed, number / 4),
        _ => generate::generate(seed, number - number / 4, row),
    }
}

pub fn judge(seed: u64, number: usize, row: u64, both: &Both) -> Judged {
    let case = Case::new(seed, number, row, &both.directory);
    let difference = if case.is_doubtful() { Some("the own ways differ".to_string()) } else { case.difference(both) };
    let difference = difference.map(|difference| format!("{difference}; {}", case.keep(number)));
    Judged { class: case.class, kinds: case.kinds, difference }
}

fn refused_line(answer: &Result<Quantified, Refusal>) -> Option<usize> {
    let refusal = answer.as_ref().err().filter(|refusal| refusal.number == 12)?;
    Some(refusal.place as usize)
}

/// By number: a file that has a name, standard input by no word, standard input by `-`.
fn file_name(rng: &Rng, number: usize, directory: &Directory) -> Option<String> {
    let name = rng.pick(&["", " of a mine", "%s%n%d", ":12: x", "\\"]);
    (number % 3 == 0).then(|| directory.file(&format!("{number:06}{name}.record")))
}

/// In one of two cases a beginning of interval 0, on or near a border of the calendar more often than not.
pub fn drawn_start(rng: &Rng) -> Option<Time> {
    if rng.chance(2) {
        return None;
    }
    let year = rng.size(2010, 2030) as u32;
    let (year, month, day) = match rng.below(8) {
        0..=1 => (rng.pick(&[4, 100, 400, 1900, 2000, 2100, 2400, 9_999]), 2, 28),
        2 => (year, 2, 28),
        3 => (year, 2, days_of_month(year, 2)),
        4 => (year, 12, 31),
        5 => any_day(rng, rng.pick(&[1, 9_999, rng.size(1, 9_999) as u32])),
        _ => any_day(rng, year),
    };
    let any = (rng.size(0, 23) as u32, rng.size(0, 59) as u32);
    let (hour, minute) = rng.pick(&[(23, 59), (23, 45), (23, 46), (0, 0), any]);
    Some(Time { year, month, day, hour, minute })
}

fn any_day(rng: &Rng, year: u32) -> (u32, u32, u32) {
    let month = rng.size(1, 12) as u32;
    (year, month, rng.size(1, days_of_month(year, month) as usize) as u32)
}

/// A year of more than four digits has no form in docs/COMMAND.md.
fn is_writable(told: &Told, start: Time) -> bool {
    told.beginning(Some(start)).is_none_or(|time| time.year <= 9_999)
}

/// The words after `sheet`, in any order that options may have.
fn arguments(rng: &Rng, file: Option<String>, start: Option<Time>) -> Vec<String> {
    let options = match start.map(Time::text) {
        None => vec![],
        Some(time) if rng.chance(3) => vec![format!("--start={time}")],
        Some(time) => vec!["--start".to_string(), time],
    };
    let file: Vec<String> = file.into_iter().collect();
    match rng.below(5) {
        0..=1 => [file, options].concat(),
        2 => [options, vec!["--".to_string()], file].concat(),
        _ => [options, file].concat(),
    }
}

fn kinds(
    by_program: &Result<Quantified, Refusal>,
    by_command: &Result<Quantified, Refusal>,
    told: Option<&Told>,
    start: Option<Time>,
) -> Vec<String> {
    let mut kinds = record_kinds(by_command);
    if is_13(by_program) {
        kinds.push(BY_THE_PROGRAM.to_string());
    }
    if let (Err(refusal), Some(told)) = (by_command, told) {
        let of_words = told_kinds(refusal.number, told, start);
        kinds.extend(of_words.into_iter().map(|kind| format!("refusal {:2}, {kind}", refusal.number)));
        kinds.extend(time_kind(told, start).map(str::to_string));
    }
    kinds
}

fn is_13(answer: &Result<Quantified, Refusal>) -> bool {
    answer.as_ref().is_err_and(|refusal| refusal.number == 13)
}

/// What the words of this refusal show, of that in which they can differ.
fn told_kinds(number: u32, told: &Told, start: Option<Time>) -> Vec<String> {
    let shown = match (number, told.due) {
        (7, Some(due)) => {
            let instrument = if let Owner::Check { instrument, .. } = due.owner { instrument } else { "no" };
            vec![
                (true, format!("{instrument} check")),
                (true, due.key.to_string()),
                (told.no_position_is_left(), "no position left".to_string()),
            ]
        }
        (9, Some(due)) => vec![(true, due.key.to_string())],
        (17..=21, Some(due)) => {
            vec![(start.is_none(), due.key.to_string()), (start.is_some(), format!("{}, time", due.key))]
        }
        (12, due) => vec![
            (told.text_ends(), "text ends".to_string()),
            (told.lacks_line_end(), "without line end".to_string()),
            (told.is_cut(), "cut line".to_string()),
            (told.has_escape(), "escaped byte".to_string()),
            (due.is_none(), "no line due".to_string()),
        ],
        _ => vec![],
    };
    shown.into_iter().filter(|(is_so, _)| *is_so).map(|(_, kind)| kind).collect()
}

fn time_kind(told: &Told, start: Option<Time>) -> Option<&'static str> {
    let has_time = told.beginning(start).is_some();
    match (start?, told.due?.owner, told.due?.key) {
        (_, Owner::Interval { .. }, _) => Some("time of an interval"),
        (_, Owner::Check { .. }, _) if has_time => Some("time of a check"),
        (_, Owner::Check { .. }, "drift") => Some("no time: check past the end"),
        _ => None,
    }
}

impl Case {
    fn new(seed: u64, number: usize, row: u64, directory: &Directory) -> Case {
        let Generated { class, bytes } = generated(seed, number, row);
        let (by_program, by_command) = (report::answer(&bytes, PROGRAM_ROW), report::answer(&bytes, COMMAND_ROW));
        let told = by_command.as_ref().err().and_then(|refusal| tell(&bytes, *refusal));
        // Another stream than those of the files.
        let rng = Rng::new(!seed, number as u64);
        let start = drawn_start(&rng).filter(|start| told.as_ref().is_none_or(|told| is_writable(told, *start)));
        let file = file_name(&rng, number, directory);
        let name = file.as_deref().unwrap_or("standard input");
        let sentence = told.as_ref().map(|told| told.sentence(name, start));
        let mut kinds = kinds(&by_program, &by_command, told.as_ref(), start);
        kinds.extend(reading_kinds::of_file(&bytes, COMMAND_ROW, &by_command));
        let word = file.clone().or((number % 3 == 2).then(|| "-".to_string()));
        let arguments = arguments(&rng, word, start);
        Case { class, bytes: Arc::new(bytes), by_program, by_command, sentence, kinds, file, arguments }
    }

    /// The words find no line that the refusal is about, or another way to find the wrong line does not find it.
    fn is_doubtful(&self) -> bool {
        let line = refused_line(&self.by_command);
        self.sentence.is_some() != self.by_command.is_err() || wrong_line(&self.bytes, COMMAND_ROW) != line
    }

    /// What should stand on standard error.
    fn words(&self) -> &str {
        self.sentence.as_deref().unwrap_or("")
    }

    /// All that differs.
    fn difference(&self, both: &Both) -> Option<String> {
        let (program, command) = match self.ask_both(both) {
            (Ok(program), Ok(command)) => (program, command),
            (Err(trouble), _) => return Some(format!("the program: {trouble}")),
            (_, Err(trouble)) => return Some(format!("the command: {trouble}")),
        };
        let status = if self.by_command.is_ok() { 0 } else { 1 };
        let differences = [
            differs("the program", &report::text(&self.by_program), &program.output),
            differs("the command", &report::text(&self.by_command), &command.output),
            differs("its words", self.words(), &command.said),
            (command.status != status).then(|| format!("its status: expected {status}, ended with {}", command.status)),
            (!is_13(&self.by_program) && program.output != command.output).then(|| "the two answer differently".into()),
        ];
        let differences: Vec<String> = differences.into_iter().flatten().collect();
        (!differences.is_empty()).then(|| differences.join("; "))
    }

    fn ask_both(&self, both: &Both) -> (Result<Answered, String>, Result<Answered, String>) {
        let program = ask(&both.program, Some(self.bytes.clone()));
        let command = [&both.command[..], &["sheet".to_string()], &self.arguments].concat();
        let command = match &self.file {
            None => ask(&command, Some(self.bytes.clone())),
            Some(file) => self.ask_about_file(&command, file),
        };
        (program, command)
    }

    fn ask_about_file(&self, command: &[String], file: &str) -> Result<Answered, String> {
        std::fs::write(file, &self.bytes[..]).map_err(|error| format!("cannot write {file}: {error}"))?;
        let answered = ask(command, None);
        let _ = std::fs::remove_file(file);
        answered
    }

    fn keep(&self, number: usize) -> String {
        let answers = report::text(&self.by_program) + &report::text(&self.by_command) + self.words();
        let arguments = format!("sheet {}\n", self.arguments.join(" "));
        let texts = [("input", &self.bytes[..]), ("expected", answers.as_bytes()), ("arguments", arguments.as_bytes())];
        keep(number, &texts)
    }
}

pub fn differs(whose: &str, expected: &str, given: &[u8]) -> Option<String> {
    let shown = || first_difference(expected, &String::from_utf8_lossy(given));
    (expected.as_bytes() != given).then(|| format!("{whose}: {}", shown()))
}
