//! The command `cmm sheet --flow`, asked about generated records and exports: its answer, its exit status and its
//! words, byte for byte.

use crate::compare::{keep, sheet_kinds, Judged};
use crate::compare_command::{differs, Directory};
use crate::flow_cases::{self, Case};
use crate::flow_command::{No, Stands, Step};
use crate::process::{ask, Answered};
use crate::quantify::Quantified;
use crate::refusals::READINGS;
use crate::sheet::sheet_text;
use std::sync::Arc;

/// From this many on, every kind of answer must have occurred.
pub const ENOUGH: usize = 400;

/// Sixteen devices, each with a short gap and its windows.
pub const LEAST_ROW: u64 = 640;

/// What the words can differ in, by a piece that only they have.
const SAID: [(&str, &str); 16] = [
    ("trouble: no such flow", "there is no flow '"),
    ("trouble: device twice", "cmm sheet: the flow of device"),
    ("trouble: input twice", "standard input is wanted twice"),
    ("trouble: no such device", "there is no device"),
    ("trouble: flow given twice", "the flow is given twice: flow="),
    ("refusal 14, more than", ": more than"),
    ("refusal 14, 0 bytes", "length: 0 bytes"),
    ("refusal 15, words", "quality is unknown: "),
    ("refusal 16, nan", "range: nan"),
    ("refusal 16, inf", "range: inf"),
    ("refusal 16, -inf", "range: -inf"),
    ("refusal 16, below 0", "reading is out of range: -"),
    ("refusal 16, next above", "range: 3000.00024"),
    ("refusal 16, large", "e+"),
    ("refusal 16, small", "e-"),
    ("export: standard input", "cmm: standard input: a"),
];

/// What has the time of an interval with it.
const TIMED: [(&str, &str); 3] =
    [("time of a flow", "given twice"), ("time, 15", "quality is unknown"), ("time, 16", "good sample")];

const UNREADABLE: [(&str, Step, &str); 4] = [
    ("no record", Step::Record, "No such file"),
    ("record is a directory", Step::Record, "Is a directory"),
    ("no export", Step::Exports, "No such file"),
    ("export is a directory", Step::Exports, "Is a directory"),
];

const STEPS: [Step; 6] = [Step::Usage, Step::Record, Step::Devices, Step::Empty, Step::Exports, Step::Rest];

fn before(first: Step, other: Step) -> String {
    format!("{first:?} before {other:?}")
}

fn of_devices(step: Step) -> String {
    format!("{step:?}: the device first, named last")
}

/// Kinds of answer that any long run must meet.
pub fn wanted() -> Vec<String> {
    let refusals = [1, 2, 4, 5, 6, 7, 9, 12, 14, 15, 16].into_iter().chain(READINGS);
    let refusals = refusals.map(|number| format!("refusal {number:2}"));
    let said = SAID.iter().chain(&TIMED).map(|(kind, _)| kind.to_string());
    let unreadable = UNREADABLE.iter().map(|(kind, ..)| kind.to_string());
    let orders = STEPS.iter().flat_map(|&first| STEPS.iter().map(move |&other| (first, other)));
    let orders = orders.filter(|(first, other)| first < other).map(|(first, other)| before(first, other));
    let rivals = [Step::Devices, Step::Empty, Step::Exports].map(of_devices);
    let sheets = ["sheet", "sheet, outcome 0", "sheet, outcome 1"].map(str::to_string);
    sheets.into_iter().chain(refusals).chain(said).chain(unreadable).chain(orders).chain(rivals).collect()
}

pub fn judge(seed: u64, number: usize, row: u64, command: &[String], directory: &Directory) -> Judged {
    let case = flow_cases::generate(seed, number, row, directory);
    let answer = case.asked.answer();
    let difference = match run(&case, command) {
        Err(trouble) => Some(trouble),
        Ok(given) => difference(&answer, &given),
    };
    let difference = difference.map(|difference| format!("{difference}; {}", kept(&case, number, &answer)));
    Judged { class: case.class, kinds: kinds(&case, &answer), difference }
}

type Answer = Result<Quantified, No>;

/// Standard output, standard error and exit status.
fn expected(answer: &Answer) -> (String, &str, i32) {
    match answer {
        Ok(quantified) => (sheet_text(&quantified.figures.numbers()), "", 0),
        Err(No { refusal: Some(refusal), said, .. }) => (refusal.text(), said, 1),
        Err(No { said, .. }) => (String::new(), said, 2),
    }
}

fn difference(answer: &Answer, given: &Answered) -> Option<String> {
    let (output, said, status) = expected(answer);
    let differences = [
        differs("its output", &output, &given.output),
        differs("its words", said, &given.said),
        (given.status != status).then(|| format!("its status: expected {status}, ended with {}", given.status)),
    ];
    let differences: Vec<String> = differences.into_iter().flatten().collect();
    (!differences.is_empty()).then(|| differences.join("; "))
}

/// The files that have a name, with their bytes.
fn named_files(case: &Case) -> impl Iterator<Item = (&String, &Arc<Vec<u8>>)> {
    case.asked.files.iter().filter_map(|(name, stands)| match stands {
        Stands::File(bytes) if name != "-" => Some((name, bytes)),
        _ => None,
    })
}

fn run(case: &Case, command: &[String]) -> Result<Answered, String> {
    for (name, bytes) in named_files(case) {
        std::fs::write(name, &bytes[..]).map_err(|error| format!("cannot write {name}: {error}"))?;
    }
    let input = match case.asked.files.get("-") {
        Some(Stands::File(bytes)) => Some(bytes.clone()),
        _ => None,
    };
    let words = [command, &["sheet".to_string()], &case.arguments].concat();
    let answered = ask(&words, input);
    for (name, _) in named_files(case) {
        let _ = std::fs::remove_file(name);
    }
    answered
}

fn kinds(case: &Case, answer: &Answer) -> Vec<String> {
    match answer {
        Ok(quantified) => sheet_kinds(quantified),
        Err(no) => kinds_of_no(case, no),
    }
}

fn kinds_of_no(case: &Case, no: &No) -> Vec<String> {
    let mut kinds: Vec<String> = no.refusal.iter().map(|refusal| format!("refusal {:2}", refusal.number)).collect();
    let said = SAID.iter().filter(|(kind, piece)| is_of(kind, no) && no.said.contains(piece));
    kinds.extend(said.map(|(kind, _)| kind.to_string()));
    let timed = TIMED.iter().filter(|(_, piece)| case.asked.start.is_some() && no.said.contains(piece));
    kinds.extend(timed.map(|(kind, _)| kind.to_string()));
    let unreadable = UNREADABLE.iter().filter(|(_, step, piece)| no.step == *step && no.said.contains(piece));
    kinds.extend(unreadable.map(|(kind, ..)| kind.to_string()));
    kinds.extend(case.offended.iter().filter(|&&other| other > no.step).map(|&other| before(no.step, other)));
    if is_named_last(case) && case.offended == [no.step] {
        kinds.push(of_devices(no.step));
    }
    kinds
}

/// Of two devices that something is the matter with, the one that decides is named after the other.
fn is_named_last(case: &Case) -> bool {
    let place = |device: usize| case.asked.flows.iter().position(|flow| flow.starts_with(&format!("{device}=")));
    case.rivals.is_some_and(|(lower, higher)| place(lower) > place(higher))
}

/// A kind that begins with a refusal's number is met by that refusal only.
fn is_of(kind: &str, no: &No) -> bool {
    let number = no.refusal.map_or(0, |refusal| refusal.number);
    !kind.starts_with("refusal") || kind.starts_with(&format!("refusal {number:2},"))
}

fn kept(case: &Case, number: usize, answer: &Answer) -> String {
    let (output, said, status) = expected(answer);
    let expected = format!("{output}{said}status {status}\n");
    let arguments = format!("sheet {}\n", case.arguments.join(" "));
    let mut texts =
        vec![("expected".to_string(), expected.as_bytes()), ("arguments".to_string(), arguments.as_bytes())];
    for (at, (name, stands)) in case.asked.files.iter().enumerate() {
        let kind = if name.ends_with(".bin") { "flow" } else { "input" };
        if let Stands::File(bytes) = stands {
            texts.push((format!("{kind}-{at}"), &bytes[..]));
        }
    }
    let texts: Vec<(&str, &[u8])> = texts.iter().map(|(name, bytes)| (name.as_str(), *bytes)).collect();
    keep(number, &texts)
}
