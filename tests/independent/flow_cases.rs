//! Cases for `cmm sheet --flow`: a record, exports and words, with nothing the matter, one thing, or two of which the
//! command must name the one that it looks at first.

use crate::compare_command::{drawn_start, Directory};
use crate::flow_arguments::{arguments, twin, wrong_option};
use crate::flow_command::{Asked, Stands, Step};
use crate::plain_files::{row_length, spoil};
use crate::record::{joined, Record};
use crate::refusal_files::break_rule;
use crate::rng::Rng;
use crate::samples::{self, good, real, right_samples, unknown, wrong_reading, WRONG_WAYS};
use crate::wrong_readings::and_higher;
use crate::{draw, historian::SAMPLE};
use std::collections::BTreeMap;
use std::sync::Arc;

/// What can be the matter.
#[derive(Clone, Copy, PartialEq, Eq)]
enum Offence {
    NoFlow,
    NamedTwice,
    InputTwice,
    NoRecord,
    RecordIsDirectory,
    Intervals,
    Devices,
    Line,
    Lacking,
    Given,
    NoExport,
    ExportIsDirectory,
    Shorter,
    Longer,
    Quality,
    Reading,
    /// What quantification refuses, by number.
    Number(u32),
}

use Offence::*;

/// By the step that finds it.
const OFFENCES: [(Step, &[Offence]); 6] = [
    (Step::Usage, &[NoFlow, NamedTwice, InputTwice]),
    (Step::Record, &[NoRecord, Intervals, Line, RecordIsDirectory, Devices, Line]),
    (Step::Devices, &[Lacking]),
    (Step::Empty, &[Given]),
    (Step::Exports, &[NoExport, Shorter, Quality, Reading, ExportIsDirectory, Longer, Quality, Reading]),
    (Step::Rest, &REST),
];

/// Quantification's other numbers, in order of test but for the readings, which are one step.
const REST: [Offence; 10] =
    [Number(4), Number(5), Number(6), Number(7), Number(17), Number(18), Number(19), Number(20), Number(21), Number(9)];

pub struct Case {
    pub class: &'static str,
    pub asked: Asked,
    /// The words after `sheet`.
    pub arguments: Vec<String>,
    /// The steps in which something is the matter.
    pub offended: Vec<Step>,
    /// Two devices with which the same step finds something the matter, the lower one, which decides, first.
    pub rivals: Option<(usize, usize)>,
}

/// An export and the device that it is named for.
struct Flow {
    device: usize,
    bytes: Vec<u8>,
    name: String,
    stands: Stands,
}

/// A case that is being made.
struct Draft<'a> {
    rng: &'a Rng,
    number: usize,
    directory: &'a Directory,
    record: Record,
    record_name: Option<String>,
    record_stands: Stands,
    flows: Vec<Flow>,
    /// The export that is offended, if not any of them.
    target: Option<usize>,
    /// What is done to the record's text, and to the words.
    later: Vec<Offence>,
}

/// The case with this number, from 0; a record has at most `row` entries.
pub fn generate(seed: u64, number: usize, row: u64, directory: &Directory) -> Case {
    let rng = Rng::new(seed.rotate_left(16), number as u64);
    if number % 8 == 6 {
        return rivals(&rng, number, row, directory);
    }
    let (class, offences) = drawn_offences(&rng, number);
    // No wrong flow comes of an export: one device keeps the record's.
    let spare = offences.iter().any(|(_, offence)| *offence == Number(17)) as usize;
    let mut draft = Draft::new(&rng, number, row, directory, 1, spare);
    for (_, offence) in &offences {
        draft.offend(*offence);
    }
    let (asked, arguments) = draft.finish();
    Case { class, asked, arguments, offended: offences.iter().map(|(step, _)| *step).collect(), rivals: None }
}

/// The same step finds something the matter with two devices: not the order of the words decides, but theirs.
fn rivals(rng: &Rng, number: usize, row: u64, directory: &Directory) -> Case {
    let mut draft = Draft::new(rng, number, row, directory, 2, 0);
    let step = [Step::Exports, Step::Empty, Step::Exports, Step::Devices][number / 8 % 4];
    if step == Step::Devices {
        draft.add_flow(draft.record.devices.len());
        draft.add_flow(15);
    }
    let last = draft.flows.len() - 1;
    let pair = if step == Step::Devices { [last - 1, last] } else { [0, rng.size(1, last)] };
    let offences = OFFENCES.iter().find(|(other, _)| *other == step).unwrap().1;
    for at in pair.into_iter().filter(|_| step != Step::Devices) {
        draft.target = Some(at);
        draft.offend(rng.pick(offences));
    }
    let rivals = Some((draft.flows[pair[0]].device, draft.flows[pair[1]].device));
    let (asked, arguments) = draft.finish();
    Case { class: "two devices", asked, arguments, offended: vec![step], rivals }
}

/// Exports that are refused or cannot be read, after each kind of wrong reading has had its turn.
const REFUSED: [Offence; 8] = [Shorter, Shorter, Longer, Longer, Quality, NoExport, Quality, Quality];

/// Of eight cases two have nothing the matter, two have one thing, two have two, and one has a refused export. The one
/// that is left is for rivals.
fn drawn_offences(rng: &Rng, number: usize) -> (&'static str, Vec<(Step, Offence)>) {
    let (round, turn) = (number / 8, number % 8);
    let all: Vec<(Step, Offence)> =
        OFFENCES.iter().flat_map(|(step, offences)| offences.iter().map(move |offence| (*step, *offence))).collect();
    let of_step = |at: usize| (OFFENCES[at].0, rng.pick(OFFENCES[at].1));
    match turn {
        0..=1 => ("sheet", vec![]),
        2..=3 => ("one thing", vec![all[(2 * round + turn - 2) % all.len()]]),
        4..=5 => {
            // Every pair of steps, a step with itself among them.
            let pair = (2 * round + turn - 4) % 36;
            ("two things", vec![of_step(pair / 6), of_step(pair % 6)])
        }
        _ => {
            let way = round % (WRONG_WAYS + REFUSED.len());
            let offence = if way < WRONG_WAYS { Reading } else { REFUSED[way - WRONG_WAYS] };
            ("export", vec![(Step::Exports, offence)])
        }
    }
}

/// Mostly short; now and then long enough for gaps with windows, or as long as the row allows.
fn drawn_sizes(rng: &Rng, number: usize, row: u64, least: usize) -> (usize, usize) {
    let most = if least > 1 { 14 } else { 16 };
    let devices = rng.pick(&[1, 1, 2, 2, 3, rng.size(1, most)]).max(least).min(row as usize);
    let most = row as usize / devices;
    let intervals = match number % 32 {
        1 | 8 | 17 | 24 => rng.size(40, 200),
        7 | 16 => row_length(rng, devices, row) - rng.pick(&[0, 0, 1, 7]),
        _ => rng.size(1, 12),
    };
    (intervals.clamp(1, most), devices)
}

/// Samples that are read, as a mine has them or of every kind.
fn drawn_export(rng: &Rng, intervals: usize) -> Vec<u8> {
    match rng.below(4) {
        0 => right_samples(rng, intervals).concat(),
        1 if rng.chance(4) => (0..intervals).flat_map(|_| samples::missing(rng)).collect(),
        _ => real(rng, intervals).concat(),
    }
}

impl<'a> Draft<'a> {
    /// At least so many devices get an export, and at least so many get none.
    fn new(rng: &'a Rng, number: usize, row: u64, directory: &'a Directory, least: usize, spare: usize) -> Draft<'a> {
        let (intervals, devices) = drawn_sizes(rng, number, row, least + spare);
        let mut record = draw::record(rng, intervals, devices);
        for device in &mut record.devices {
            for which in 0..2 {
                *device.checks(which) = draw::checks(rng, intervals, rng.pick(&[0, 0, 0, 1, 3]));
            }
            spoil(rng, device, 20);
        }
        let record_name = Some(format!("{}.record", name(rng, number, directory)));
        let record_stands = Stands::Nothing;
        let mut draft = Draft {
            rng,
            number,
            directory,
            record,
            record_name,
            record_stands,
            flows: vec![],
            target: None,
            later: vec![],
        };
        let one_in = rng.pick(&[1, 2, 3]);
        let first = rng.below(devices);
        let turn = |device: usize| (device + devices - first) % devices;
        let is_chosen = |device: usize| turn(device) < least || (turn(device) < devices - spare && rng.chance(one_in));
        for device in (0..devices).filter(|&device| is_chosen(device)) {
            draft.add_flow(device);
            draft.record.devices[device].flow.fill(None);
        }
        draft
    }

    fn intervals(&self) -> usize {
        self.record.intervals as usize
    }

    fn add_flow(&mut self, device: usize) {
        let name = format!("{}-{device}.bin", name(self.rng, self.number, self.directory));
        let bytes = drawn_export(self.rng, self.intervals());
        self.flows.push(Flow { device, bytes, name, stands: Stands::File(Arc::default()) });
    }

    /// The export that is offended.
    fn some_flow(&mut self) -> &mut Flow {
        let at = self.target.unwrap_or(self.rng.below(self.flows.len()));
        &mut self.flows[at]
    }

    fn offend(&mut self, offence: Offence) {
        let (rng, intervals) = (self.rng, self.intervals());
        match offence {
            NoFlow | NamedTwice | InputTwice | NoRecord | RecordIsDirectory | Intervals | Devices | Line => {
                self.later.push(offence)
            }
            Lacking if self.record.devices.len() < 16 => {
                let device = rng.pick(&[self.record.devices.len(), 15]);
                self.add_flow(device);
            }
            Lacking => {}
            Given => self.give_flow(),
            NoExport => self.lose_export(),
            ExportIsDirectory => {
                let name = self.directory.name();
                let flow = self.some_flow();
                (flow.name, flow.stands) = (name, Stands::Directory);
            }
            Shorter => {
                let whole = SAMPLE * intervals;
                let kept = [0, 1, whole - SAMPLE, whole - 1, rng.below(whole)][self.number / 8 % 5];
                self.some_flow().bytes.truncate(kept);
            }
            Longer => {
                let more = rng.bytes(rng.pick(&[1, 4, 5, 10, 500, 300_000]));
                self.some_flow().bytes.extend(more);
            }
            Quality => self.spoil_sample(unknown(rng, rng.below(253))),
            Reading => self.spoil_sample(good(wrong_reading(rng, self.number / 8))),
            Number(number @ 17..=21) => self.spoil_readings(number),
            Number(number) => break_rule(rng, &mut self.record, number),
        }
    }

    /// The directory, which an export may stand for by now, is not lost with it.
    fn lose_export(&mut self) {
        let flow = self.some_flow();
        if !matches!(flow.stands, Stands::Directory) {
            flow.stands = Stands::Nothing;
        }
    }

    /// A wrong reading, and at times more in its interval; a wrong flow of a device that has no export.
    fn spoil_readings(&mut self, number: u32) {
        let (rng, n) = (self.rng, self.intervals());
        let has_export = |device: usize| self.flows.iter().any(|flow| flow.device == device);
        let may_be = |device: &usize| number > 17 || !has_export(*device);
        let devices: Vec<usize> = (0..self.record.devices.len()).filter(may_be).collect();
        let interval = rng.pick(&[0, n - 1, rng.below(n)]);
        and_higher(rng, &mut self.record, n * rng.pick(&devices) + interval, number);
    }

    /// One flow, or some, that the record has where an export has them too.
    fn give_flow(&mut self) {
        let device = self.some_flow().device;
        let Some(device) = self.record.devices.get_mut(device) else {
            return;
        };
        for _ in 0..self.rng.pick(&[1, 1, 3]) {
            let at = self.rng.pick(&[0, device.flow.len() - 1, self.rng.below(device.flow.len())]);
            device.flow[at] = Some(self.rng.pick(&[0, 1, 30_000, 30_001, 65_534]));
        }
    }

    /// One or two samples of this kind, if the export is long enough still.
    fn spoil_sample(&mut self, sample: [u8; SAMPLE]) {
        let (rng, intervals) = (self.rng, self.intervals());
        let flow = self.some_flow();
        for _ in 0..rng.pick(&[1, 1, 2]) {
            let at = SAMPLE * rng.pick(&[0, intervals - 1, rng.below(intervals)]);
            if at + SAMPLE <= flow.bytes.len() {
                flow.bytes[at..at + SAMPLE].copy_from_slice(&sample);
            }
        }
    }

    fn finish(mut self) -> (Asked, Vec<String>) {
        let text = self.text();
        self.record_stands = Stands::File(Arc::new(text));
        for flow in &mut self.flows {
            if let Stands::File(bytes) = &mut flow.stands {
                *bytes = Arc::new(std::mem::take(&mut flow.bytes));
            }
        }
        self.share_names();
        self.choose_input();
        let files = self.files();
        let flows = self.options();
        // A year of more than four digits has no form in docs/COMMAND.md.
        let start = drawn_start(self.rng).filter(|start| start.year < 9_999);
        let asked = Asked { flows, record: self.record_name, start, files };
        let arguments = arguments(self.rng, &asked);
        (asked, arguments)
    }

    /// The record file, with what makes its reader refuse it.
    fn text(&self) -> Vec<u8> {
        let mut lines = self.record.lines();
        let (rng, at) = (self.rng, self.rng.below(lines.len()));
        if self.later.contains(&Intervals) {
            lines[0] = rng.pick(&["intervals=0", "intervals=35137"]).to_string();
        }
        if self.later.contains(&Devices) {
            lines[1] = rng.pick(&["devices=0", "devices=17"]).to_string();
        }
        if self.later.contains(&Line) {
            lines[at].push_str(rng.pick(&["x", "\r", " ", ".5"]));
            lines.truncate(if rng.chance(4) { at } else { lines.len() });
        }
        joined(&lines)
    }

    /// Two devices may have one file, where nothing is the matter with either.
    fn share_names(&mut self) {
        if self.number % 8 < 2 && self.flows.len() > 1 && self.rng.chance(4) {
            let (name, stands) = (self.flows[0].name.clone(), self.flows[0].stands.clone());
            self.flows.last_mut().unwrap().name = name;
            self.flows.last_mut().unwrap().stands = stands;
        }
    }

    /// What comes on standard input: nothing, the record by no word or by `-`, or an export.
    fn choose_input(&mut self) {
        let twice = self.later.contains(&InputTwice);
        if self.later.contains(&NoRecord) {
            self.record_stands = Stands::Nothing;
        } else if self.later.contains(&RecordIsDirectory) {
            (self.record_name, self.record_stands) = (Some(self.directory.name()), Stands::Directory);
        } else {
            match self.rng.below(4) {
                0 => self.record_name = None,
                1 => self.record_name = Some("-".to_string()),
                _ => {}
            }
        }
        let files: Vec<usize> =
            (0..self.flows.len()).filter(|&at| matches!(self.flows[at].stands, Stands::File(_))).collect();
        if twice && files.len() == 1 {
            self.record_name = None;
        }
        let is_free = self.record_name.as_deref().is_some_and(|name| name != "-");
        let wanted = if twice { 1 + is_free as usize } else { (is_free && self.rng.chance(2)) as usize };
        let last = files.len().saturating_sub(wanted);
        for &at in files.iter().skip(self.rng.size(0, last)).take(wanted) {
            self.flows[at].name = "-".to_string();
        }
    }

    /// Of two that want standard input one is told here, and neither is read.
    fn files(&self) -> BTreeMap<String, Stands> {
        let record = (self.record_name.clone().unwrap_or("-".to_string()), self.record_stands.clone());
        let exports = self.flows.iter().map(|flow| (flow.name.clone(), flow.stands.clone()));
        exports.chain([record]).collect()
    }

    /// The values of `--flow` in a drawn order.
    fn options(&self) -> Vec<String> {
        let mut options: Vec<String> = self.flows.iter().map(|flow| format!("{}={}", flow.device, flow.name)).collect();
        for k in (1..options.len()).rev() {
            options.swap(k, self.rng.below(k + 1));
        }
        for offence in &self.later {
            let more = match offence {
                NoFlow => wrong_option(self.rng, &options),
                NamedTwice => self.rng.pick(&[options[0].clone(), twin(&options[0])].each_ref()).clone(),
                _ => continue,
            };
            options.insert(self.rng.size(0, options.len()), more);
        }
        options
    }
}

/// A name for a file, which the command must neither take apart nor print by.
fn name(rng: &Rng, number: usize, directory: &Directory) -> String {
    let decoration = rng.pick(&["", "", " of a mine", "%s%n%d", ":12: x", "\\", "=1", "'"]);
    directory.file(&format!("{number:06}{decoration}"))
}
