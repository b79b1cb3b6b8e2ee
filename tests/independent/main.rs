//! `independent`: document 01 implemented a second time, apart from the proved crates, with a seeded generator of
//! record files. See README.md beside this file.

mod answerer;
mod border_windows;
mod calendar;
mod call;
mod calls;
mod compare;
mod compare_calls;
mod compare_command;
mod compare_exports;
mod compare_flow;
mod compare_limits;
mod compare_ventilation;
mod damaged_files;
mod damaged_sheets;
mod decimal;
mod draw;
mod drift;
mod exact;
mod exports;
mod flow_arguments;
mod flow_cases;
mod flow_command;
mod flow_words;
mod gap_files;
mod gaps;
mod generate;
mod historian;
mod image;
mod library;
mod library_texts;
mod limit_kinds;
mod limit_rows;
mod limit_ways;
mod litre_borders;
mod litre_kinds;
mod litre_reading;
mod litre_ways;
mod lost_litres;
mod natural;
mod nine_digits;
mod outcomes;
mod pattern_sums;
mod plain_files;
mod possible_text;
mod process;
mod protocol;
mod quantify;
mod reading_kinds;
mod record;
mod record_reader;
mod refusal;
mod refusal_files;
mod refusals;
mod report;
mod rng;
mod samples;
mod selfcheck;
mod selfcheck_calls;
mod selfcheck_correction;
mod selfcheck_flow;
mod selfcheck_historian;
mod selfcheck_limits;
mod selfcheck_litres;
mod selfcheck_readings;
mod selfcheck_texts;
mod selfcheck_vent;
mod selfcheck_vent_calls;
mod selfcheck_words;
mod sheet;
mod sound_calls;
mod tonnes;
mod vent_air;
mod vent_borders;
mod vent_call;
mod vent_calls;
mod vent_draw;
mod vent_exact;
mod vent_kinds;
mod vent_litres;
mod vent_lost;
mod vent_methane;
mod vent_missing;
mod vent_plain;
mod vent_program;
mod vent_quantify;
mod vent_reading_kinds;
mod vent_refusals;
mod vent_solve;
mod vent_told;
mod vent_ways;
mod vent_wrong_above;
mod vent_wrong_calls;
mod vent_wrong_litres;
mod vent_wrong_programs;
mod vent_wrong_readings;
mod vent_wrong_refusals;
mod word_files;
mod words;
mod wrong_calls;
mod wrong_litres;
mod wrong_readings;

use answerer::{Answerer, Program};
use compare::{Asked, Judged};
use compare_command::{Both, Directory};
use library::Library;
use library_texts::{Records, Sheets};
use limit_ways::Farthest;
use std::io::{Read, Write};
use std::process::ExitCode;
use std::sync::atomic::AtomicUsize;
use vent_lost::Nearest;

const USAGE: &str = "usage:
  independent report [ROW]                       record file on standard input: the sheet, or three lines
  independent rows [ROW]                         record file on standard input: device, interval, outcome, flow, CH4
  independent read-sheet                         sheet on standard input: the sheet, or three lines
  independent generate SEED COUNT DIR [ROW]      writes DIR/000001.record and so on
  independent compare SEED COUNT PROGRAM [WORDS]         the program on generated record files
  independent compare-row ROW SEED COUNT PROGRAM [WORDS] the same for a reader that is lent longer rows
  independent compare-sheets SEED COUNT PROGRAM [WORDS]  a program that answers as read-sheet does
  independent compare-command ROW SEED COUNT PROGRAM [WORDS] -- COMMAND [WORDS]   the program and `COMMAND sheet`
  independent compare-flow ROW SEED COUNT -- COMMAND [WORDS]   `COMMAND sheet --flow`, records of up to ROW entries
  independent compare-calls SEED COUNT SERVER            the library's cmm_quantify on generated calls
  independent compare-limits SEED WINDOWS SERVER         the same on rows full of gaps with a lower limit
  independent compare-ventilation SEED COUNT SERVER      the library's cmm_quantify_ventilation on generated calls
  independent compare-library SEED COUNT ROW SERVER      its cmm_report with rows of this length, result rows too
  independent compare-library-sheets SEED COUNT SERVER   its reader and writer of sheets
  independent compare-exports SEED COUNT SERVER          its cmm_read_flow on generated exports
  independent pattern-sums FIRST COUNT           checksums of all good samples, in blocks of 2^20, 0 to 4095
  independent show-call SEED NUMBER              the call with this number, and the own answer to it
  independent show-ventilation SEED NUMBER       the same of a call about ventilation air
  independent limit-ways SEED WINDOWS            the own ways of a lower limit held to each other
  independent litre-ways SEED READINGS           the own ways of an interval's litres held to each other
  independent vent-ways SEED INTERVALS           the same for ventilation air
  independent selfcheck                          the own implementation held to document 01's numbers";

fn main() -> ExitCode {
    let args: Vec<String> = std::env::args().skip(1).collect();
    let words: Vec<&str> = args.iter().map(String::as_str).collect();
    match run(&words) {
        Some(true) => ExitCode::SUCCESS,
        Some(false) => ExitCode::from(1),
        None => {
            eprintln!("{USAGE}");
            ExitCode::from(2)
        }
    }
}

/// Did all go well? Nothing if the words are not a command.
fn run(words: &[&str]) -> Option<bool> {
    let default_row = protocol::PROGRAM_ROW;
    match words {
        ["report"] => Some(report_input(default_row)),
        ["report", row] => Some(report_input(row.parse().ok()?)),
        ["rows"] => Some(rows_of_input(default_row)),
        ["rows", row] => Some(rows_of_input(row.parse().ok()?)),
        ["read-sheet"] => Some(print(&report::sheet_report(&input()))),
        ["generate", seed, count, dir] => write_files(seed.parse().ok()?, count.parse().ok()?, dir, default_row),
        ["generate", seed, count, dir, row] => {
            write_files(seed.parse().ok()?, count.parse().ok()?, dir, row.parse().ok()?)
        }
        ["compare", seed, count, program @ ..] => compare_records(default_row, seed, count, program),
        ["compare-row", row, seed, count, program @ ..] => compare_records(row.parse().ok()?, seed, count, program),
        ["compare-sheets", seed, count, program @ ..] => compare_sheets(seed, count, program),
        ["compare-command", row, seed, count, words @ ..] => compare_command(row, seed, count, words),
        ["compare-flow", row, seed, count, "--", command @ ..] => compare_flow(row, seed, count, command),
        ["compare-calls", seed, count, server @ ..] => compare_calls(seed, count, server),
        ["compare-ventilation", seed, count, server @ ..] => compare_ventilation(seed, count, server),
        ["compare-limits", seed, windows, server @ ..] => compare_limits(seed, windows, server),
        ["compare-library", seed, count, row, server @ ..] => compare_library(seed, count, row, server),
        ["compare-library-sheets", seed, count, server @ ..] => compare_library_sheets(seed, count, server),
        ["compare-exports", seed, count, server @ ..] => compare_exports(seed, count, server),
        ["pattern-sums", first, count] => pattern_sums(first.parse().ok()?, count.parse().ok()?),
        ["show-call", seed, number] => Some(show_call(seed.parse().ok()?, number.parse().ok()?)),
        ["show-ventilation", seed, number] => Some(show_ventilation(seed.parse().ok()?, number.parse().ok()?)),
        ["limit-ways", seed, windows] => limit_ways(seed.parse().ok()?, windows.parse().ok()?),
        ["litre-ways", seed, readings] => Some(litre_ways::run(seed.parse().ok()?, readings.parse().ok()?)),
        ["vent-ways", seed, intervals] => Some(vent_ways::run(seed.parse().ok()?, intervals.parse().ok()?)),
        ["selfcheck"] => Some(selfcheck::run()),
        _ => None,
    }
}

fn input() -> Vec<u8> {
    let mut bytes = Vec::new();
    std::io::stdin().read_to_end(&mut bytes).expect("standard input cannot be read");
    bytes
}

fn print(text: &str) -> bool {
    std::io::stdout().write_all(text.as_bytes()).is_ok()
}

fn report_input(row: u64) -> bool {
    print(&report::text(&report::answer(&input(), row)))
}

fn rows_of_input(row: u64) -> bool {
    match report::answer(&input(), row) {
        Ok(quantified) => print(&report::rows_text(&quantified)),
        Err(refusal) => print(&refusal.text()),
    }
}

fn write_files(seed: u64, count: usize, dir: &str, row: u64) -> Option<bool> {
    std::fs::create_dir_all(dir).ok()?;
    for number in 0..count {
        let name = format!("{dir}/{:06}.record", number + 1);
        std::fs::write(name, generate::generate(seed, number, row).bytes).ok()?;
    }
    Some(true)
}

fn program(words: &[&str]) -> Option<Program> {
    let words: Vec<String> = words.iter().map(|word| word.to_string()).collect();
    (!words.is_empty()).then_some(Program { words })
}

fn compare_records(row: u64, seed: &str, count: &str, words: &[&str]) -> Option<bool> {
    let (seed, count) = (seed.parse().ok()?, count.parse().ok()?);
    let ask = |number| compare::ask_record(seed, number, row);
    Some(compare_files(count, &ask, &program(words)?, &compare::record_kinds_wanted(row)))
}

fn compare_files(count: usize, ask: &(dyn Fn(usize) -> Asked + Sync), asked: &dyn Answerer, wanted: &[String]) -> bool {
    let summary = compare::compare(count, &|number| compare::judge_file(number, &ask(number), asked));
    summary.conclude("files", count, wanted)
}

fn compare_sheets(seed: &str, count: &str, words: &[&str]) -> Option<bool> {
    let (seed, count) = (seed.parse().ok()?, count.parse().ok()?);
    let ask = |number| compare::ask_sheet(seed, number);
    Some(compare_files(count, &ask, &program(words)?, &sheet_kinds_wanted()))
}

fn sheet_kinds_wanted() -> Vec<String> {
    vec!["sheet".to_string(), "refusal 10".to_string()]
}

fn compare_command(row: &str, seed: &str, count: &str, words: &[&str]) -> Option<bool> {
    let (row, seed, count) = (row.parse().ok()?, seed.parse().ok()?, count.parse().ok()?);
    let between = words.iter().position(|word| *word == "--")?;
    let (program, command) = (program(&words[..between])?.words, program(&words[between + 1..])?.words);
    let directory = Directory::new().expect("no directory for the files");
    let both = Both { program, command, directory };
    let summary = compare::compare(count, &|number| compare_command::judge(seed, number, row, &both));
    Some(summary.conclude("files", count, &compare_command::wanted()))
}

fn compare_flow(row: &str, seed: &str, count: &str, words: &[&str]) -> Option<bool> {
    let (row, seed, count) = (row.parse().ok()?, seed.parse().ok()?, count.parse().ok()?);
    let command = program(words).filter(|_| row >= compare_flow::LEAST_ROW)?.words;
    let directory = Directory::new().expect("no directory for the files");
    let judge = |number| compare_flow::judge(seed, number, row, &command, &directory);
    let summary = compare::compare(count, &judge);
    Some(summary.conclude_from(compare_flow::ENOUGH, "cases", count, &compare_flow::wanted()))
}

fn compare_calls(seed: &str, count: &str, server: &[&str]) -> Option<bool> {
    let (seed, count, library) = (seed.parse().ok()?, count.parse().ok()?, Library::new(server)?);
    let summary = compare::compare(count, &|number| compare_calls::judge(seed, number, &library));
    Some(summary.conclude("calls", count, &compare_calls::wanted()))
}

fn compare_ventilation(seed: &str, count: &str, server: &[&str]) -> Option<bool> {
    let (seed, count, library) = (seed.parse().ok()?, count.parse().ok()?, Library::new(server)?);
    let nearest = Nearest::default();
    let summary = compare::compare(count, &|number| compare_ventilation::judge(seed, number, &library, &nearest));
    println!("{}", nearest.text());
    Some(summary.conclude("calls", count, &compare_ventilation::wanted()))
}

fn compare_limits(seed: &str, windows: &str, server: &[&str]) -> Option<bool> {
    let (seed, windows, library) = (seed.parse().ok()?, windows.parse().ok()?, Library::new(server)?);
    Some(over_windows(windows, &|number| compare_limits::judge(seed, number, &library)))
}

fn limit_ways(seed: u64, windows: usize) -> Option<bool> {
    let farthest = Farthest::default();
    let is_well = over_windows(windows, &|number| limit_ways::judge(seed, number, &farthest));
    println!("{}", farthest.text());
    Some(is_well)
}

/// Calls until there are so many windows of lower limits.
fn over_windows(windows: usize, judge: &(dyn Fn(usize) -> Judged + Sync)) -> bool {
    let count = limit_rows::calls_with(windows);
    let summary = compare::compare(count, judge);
    println!("{} windows", (0..count).map(limit_rows::windows).sum::<usize>());
    summary.conclude_from(compare_limits::ENOUGH, "calls", count, &limit_kinds::wanted())
}

fn compare_library(seed: &str, count: &str, row: &str, server: &[&str]) -> Option<bool> {
    let (seed, count, row, library) =
        (seed.parse().ok()?, count.parse().ok()?, row.parse().ok()?, Library::new(server)?);
    let records = Records { library: &library, row: row as usize };
    let ask = |number| library_texts::ask(seed, number, row);
    Some(compare_files(count, &ask, &records, &compare::record_kinds_wanted(row)))
}

fn compare_library_sheets(seed: &str, count: &str, server: &[&str]) -> Option<bool> {
    let (seed, count, library) = (seed.parse().ok()?, count.parse().ok()?, Library::new(server)?);
    let ask = |number| compare::ask_sheet(seed, number);
    Some(compare_files(count, &ask, &Sheets { library: &library }, &sheet_kinds_wanted()))
}

fn compare_exports(seed: &str, count: &str, server: &[&str]) -> Option<bool> {
    let (seed, count, library) = (seed.parse().ok()?, count.parse().ok()?, Library::new(server)?);
    let samples = AtomicUsize::new(0);
    let summary = compare::compare(count, &|number| compare_exports::judge(seed, number, &library, &samples));
    println!("{} samples", samples.into_inner());
    Some(summary.conclude("exports", count, &compare_exports::wanted()))
}

fn pattern_sums(first: u32, count: u32) -> Option<bool> {
    let are_blocks = first <= pattern_sums::BLOCKS && count <= pattern_sums::BLOCKS - first;
    are_blocks.then(|| pattern_sums::print(first, count))
}

fn show_call(seed: u64, number: usize) -> bool {
    let call = calls::generate(seed, number).call;
    let answer = quantify::quantify(&call);
    print(&format!("{call:?}\n{}", report::text(&answer)))
}

fn show_ventilation(seed: u64, number: usize) -> bool {
    let call = vent_calls::generate(seed, number).call;
    let text = match vent_quantify::quantify_ventilation(&call) {
        Ok(quantified) => sheet::sheet_text(&quantified.figures.numbers()),
        Err(refusal) => refusal.text(),
    };
    print(&format!("{call:?}\n{text}"))
}
