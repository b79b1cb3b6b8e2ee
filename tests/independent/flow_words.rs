//! What the command says of `--flow`, from docs/COMMAND.md alone: five kinds of trouble, and the sentence of an export
//! that is refused.

use crate::calendar::Time;
use crate::historian::{pattern, samples, SAMPLE};
use crate::nine_digits;
use crate::refusal::Refusal;

pub fn no_such_flow(option: &str) -> String {
    let wanted = "a device, 0 to 15, and a file are wanted, as 0=flow.bin";
    usage(&format!("there is no flow '{option}': {wanted}"))
}

pub fn named_twice(device: usize) -> String {
    usage(&format!("the flow of device {device} is given twice"))
}

pub fn input_wanted_twice() -> String {
    usage("standard input is wanted twice")
}

fn usage(sentence: &str) -> String {
    format!("cmm sheet: {sentence}\nTry 'cmm sheet --help'.\n")
}

/// A file as the words name it.
pub fn shown(file: &str) -> &str {
    if file == "-" {
        "standard input"
    } else {
        file
    }
}

pub fn no_device(record: &str, device: usize, file: &str) -> String {
    format!("cmm: {}: there is no device {device}, whose flow {} has\n", shown(record), shown(file))
}

/// The first line of a device's flow that is not empty. The text is a record file with so many intervals.
pub struct GivenFlow<'a> {
    line: usize,
    value: &'a str,
    interval: u64,
}

pub fn given_flow(text: &[u8], intervals: usize, device: usize) -> Option<GivenFlow<'_>> {
    let lines = std::str::from_utf8(text).expect("a record file is plain text").lines().enumerate();
    let of_flow = lines.filter(|(_, line)| line.starts_with("flow="));
    let own = of_flow.skip(device * intervals).take(intervals).enumerate();
    let mut given = own.filter(|(_, (_, line))| *line != "flow=");
    given.next().map(|(interval, (at, value))| GivenFlow { line: at + 1, value, interval: interval as u64 })
}

impl GivenFlow<'_> {
    pub fn sentence(&self, record: &str, device: usize, file: &str, start: Option<Time>) -> String {
        let GivenFlow { line, value, interval } = self;
        let of_where = interval_words(device, *interval, start);
        let right = format!("flow= is right where {} has the device's flow", shown(file));
        format!("cmm: {}:{line}: the flow is given twice: {value} ({of_where}); {right}\n", shown(record))
    }
}

fn interval_words(device: usize, interval: u64, start: Option<Time>) -> String {
    let beginning = start.map_or(String::new(), |start| format!(", {}", start.later(15 * interval).text()));
    format!("device {device}, interval {interval}{beginning}")
}

/// An export that is refused, for which device and from which file.
pub struct RefusedExport<'a> {
    pub device: usize,
    pub file: &'a str,
    pub intervals: usize,
    pub bytes: &'a [u8],
    pub refusal: Refusal,
}

impl RefusedExport<'_> {
    pub fn sentence(&self, start: Option<Time>) -> String {
        let wrong = match self.refusal.number {
            14 => "the export has the wrong length",
            15 => "a sample's quality is unknown",
            16 => "a good sample's reading is out of range",
            number => panic!("an export is not refused with {number}"),
        };
        let (value, of_where, right) = (self.value(), self.of_where(start), self.right());
        format!("cmm: {}: {wrong}: {value} ({of_where}); {right}\n", shown(self.file))
    }

    fn right_length(&self) -> usize {
        SAMPLE * self.intervals
    }

    /// The sample that is refused.
    fn sample(&self) -> [u8; SAMPLE] {
        samples(self.bytes).nth(self.refusal.place as usize).expect("the refused sample is one of the export's")
    }

    fn value(&self) -> String {
        match self.refusal.number {
            14 if self.bytes.len() > self.right_length() => format!("more than {} bytes", self.right_length()),
            14 => format!("{} bytes", self.bytes.len()),
            15 => self.sample()[0].to_string(),
            _ => nine_digits::written(pattern(&self.sample())),
        }
    }

    fn of_where(&self, start: Option<Time>) -> String {
        let Refusal { number, place, .. } = self.refusal;
        if number == 14 {
            return format!("device {}", self.device);
        }
        format!("{}, byte {}", interval_words(self.device, place, start), SAMPLE as u64 * place)
    }

    fn right(&self) -> String {
        match self.refusal.number {
            14 => format!("{} bytes are right, 5 for each of {} intervals", self.right_length(), self.intervals),
            15 => "0 to 2 is right, for good, uncertain, bad".to_string(),
            _ => "0 to 3000 is right, in m3".to_string(),
        }
    }
}
