//! The sentence that the command says of a refusal, from docs/COMMAND.md alone. The lines that are due are gone through
//! one by one, each with what the page's tables say of it, up to the one that the refusal is about.

use crate::calendar::Time;
use crate::refusal::Refusal;

/// What a line belongs to, counted from 0.
#[derive(Clone, Copy, Debug, PartialEq, Eq)]
pub enum Owner {
    Head,
    Fuel(u64),
    Device(u64),
    Check { device: u64, instrument: &'static str, check: u64 },
    Interval { device: u64, interval: u64 },
}

/// A line that is due.
#[derive(Clone, Copy, Debug)]
pub struct Due {
    pub key: &'static str,
    pub owner: Owner,
    least: i64,
    most: i64,
    /// The interval whose beginning is told with this line, if a start is given.
    pub interval: Option<u64>,
}

impl Due {
    /// What has no number is missing, and not outside.
    fn is_outside(&self, number: Option<i64>) -> bool {
        number.is_some_and(|number| number < self.least || number > self.most)
    }
}

/// The line that a refusal is about, as it stands.
pub struct Told<'a> {
    refusal: Refusal,
    line: u64,
    /// Nothing if the record has ended.
    pub due: Option<Due>,
    /// Without its byte 10. Nothing if the text ends before this line.
    bytes: Option<&'a [u8]>,
    has_line_end: bool,
}

const NOTES: [(&str, &str); 10] = [
    ("mine", "for underground, surface"),
    ("quantity", "in thousandths of a unit"),
    ("factor", "in g of CO2 a unit"),
    ("kind", "for open flare, enclosed flare, engine, boiler, turbine, pipeline injection"),
    ("drift", "in 0.01 %"),
    ("flow", "in 0.1 m3"),
    ("ch4", "in 0.01 %"),
    ("temp", "in 0.01 degrees Celsius"),
    ("press", "in Pa"),
    ("status", "for stopped, running, running and attested, no thermocouple record"),
];

fn note(key: &str) -> Option<&'static str> {
    NOTES.iter().find(|(noted, _)| *noted == key).map(|(_, note)| *note)
}

fn may_be_missing(key: &str) -> bool {
    ["flow", "ch4", "temp", "press"].contains(&key)
}

fn wrong(number: u32) -> &'static str {
    match number {
        1 => "the number of intervals is out of range",
        2 => "the number of devices is out of range",
        4 => "there is no such mine",
        5 => "there is no such kind of device",
        6 => "pipeline injection is not for an underground mine",
        7 => "a check is wrong",
        9 => "a fuel line is out of range",
        12 => "the line is wrong",
        17 => "the flow is out of range",
        18 => "the CH4 content is out of range",
        19 => "the temperature is out of range",
        20 => "the pressure is out of range",
        21 => "the status is out of range",
        _ => panic!("a record file is not refused with {number}"),
    }
}

/// The lines whose numbers a refusal judges.
fn judged(number: u32) -> &'static [&'static str] {
    match number {
        1 => &["intervals"],
        2 => &["devices"],
        4 => &["mine"],
        5 | 6 => &["kind"],
        7 => &["at", "drift"],
        9 => &["quantity", "factor"],
        17 => &["flow"],
        18 => &["ch4"],
        19 => &["temp"],
        20 => &["press"],
        21 => &["status"],
        _ => &[],
    }
}

/// The line that this refusal of this text is about; nothing if there is none, which would be an error of one's own.
pub fn tell(text: &[u8], refusal: Refusal) -> Option<Told<'_>> {
    let mut walk = Walk { refusal, rest: text, line: 0, intervals: 0 };
    let told = match walk.record() {
        Err(told) => told,
        Ok(()) => walk.after_the_record(),
    };
    told.agrees().then_some(told)
}

struct Walk<'a> {
    refusal: Refusal,
    rest: &'a [u8],
    /// The number of lines gone through.
    line: u64,
    intervals: u64,
}

/// Going through lines ends early, as an error does, with the line that is told.
type Through<'a, T> = Result<T, Told<'a>>;

impl<'a> Walk<'a> {
    fn record(&mut self) -> Through<'a, ()> {
        self.intervals = self.due("intervals", Owner::Head, 1, 35_136)?;
        let devices = self.due("devices", Owner::Head, 1, 16)?;
        self.due("mine", Owner::Head, 0, 1)?;
        let fuels = self.due("fuels", Owner::Head, 0, 64)?;
        for fuel in 0..fuels {
            self.due("quantity", Owner::Fuel(fuel), 0, 1_000_000_000)?;
            self.due("factor", Owner::Fuel(fuel), 0, 4_000_000)?;
        }
        for device in 0..devices {
            self.device(device)?;
        }
        Ok(())
    }

    fn device(&mut self, device: u64) -> Through<'a, ()> {
        self.due("kind", Owner::Device(device), 1, 6)?;
        let flow_checks = self.due("flow_checks", Owner::Device(device), 0, 32)?;
        self.checks(device, "flow", flow_checks)?;
        let ch4_checks = self.due("ch4_checks", Owner::Device(device), 0, 32)?;
        self.checks(device, "CH4", ch4_checks)?;
        for interval in 0..self.intervals {
            self.interval(device, interval)?;
        }
        Ok(())
    }

    fn checks(&mut self, device: u64, instrument: &'static str, count: u64) -> Through<'a, ()> {
        let end = self.intervals as i64;
        let mut least = 0;
        for check in 0..count {
            let owner = Owner::Check { device, instrument, check };
            let at = self.due("at", owner, least, end)?;
            let interval = (at <= self.intervals).then_some(at);
            self.go(Due { key: "drift", owner, least: -9_000, most: 20_000, interval })?;
            // Checks out of order make no line wrong: only refusal 7 speaks of the check before.
            if self.refusal.number == 7 {
                least = at as i64 + 1;
            }
        }
        Ok(())
    }

    fn interval(&mut self, device: u64, interval: u64) -> Through<'a, ()> {
        let owner = Owner::Interval { device, interval };
        for (key, least, most) in [
            ("flow", 0, 30_000),
            ("ch4", 0, 10_000),
            ("temp", -4_000, 10_000),
            ("press", 50_000, 300_000),
            ("status", 0, 3),
        ] {
            self.go(Due { key, owner, least, most, interval: Some(interval) })?;
        }
        Ok(())
    }

    /// A line whose number is wanted, none of an interval. If it is not the one that is told, it is a right line.
    fn due(&mut self, key: &'static str, owner: Owner, least: i64, most: i64) -> Through<'a, u64> {
        let number = self.go(Due { key, owner, least, most, interval: None })?;
        Ok(number.unwrap_or(0) as u64)
    }

    /// The line's number, or nothing where it has none.
    fn go(&mut self, due: Due) -> Through<'a, Option<i64>> {
        let (bytes, has_line_end) = self.next_line();
        let number = bytes.and_then(number_of);
        if self.is_told(&due, number) {
            return Err(Told { refusal: self.refusal, line: self.line, due: Some(due), bytes, has_line_end });
        }
        Ok(number)
    }

    fn next_line(&mut self) -> (Option<&'a [u8]>, bool) {
        self.line += 1;
        let text = self.rest;
        match text.iter().position(|&byte| byte == 10) {
            Some(end) => {
                self.rest = &text[end + 1..];
                (Some(&text[..end]), true)
            }
            None => {
                self.rest = &[];
                ((!text.is_empty()).then_some(text), false)
            }
        }
    }

    fn is_told(&self, due: &Due, number: Option<i64>) -> bool {
        let judged = judged(self.refusal.number).contains(&due.key);
        match self.refusal.number {
            12 => self.line == self.refusal.place,
            6 => judged && number == Some(6),
            // The number names the series, device and place the interval.
            17..=21 => judged && due.owner == self.refused_interval(),
            _ => judged && due.is_outside(number),
        }
    }

    fn refused_interval(&self) -> Owner {
        Owner::Interval { device: self.refusal.device, interval: self.refusal.place }
    }

    fn after_the_record(&mut self) -> Told<'a> {
        let (bytes, has_line_end) = self.next_line();
        Told { refusal: self.refusal, line: self.line, due: None, bytes, has_line_end }
    }
}

fn number_of(line: &[u8]) -> Option<i64> {
    let equals = line.iter().position(|&byte| byte == b'=')?;
    std::str::from_utf8(&line[equals + 1..]).ok()?.parse().ok()
}

impl Told<'_> {
    pub fn sentence(&self, file: &str, start: Option<Time>) -> String {
        let (line, wrong) = (self.line, wrong(self.refusal.number));
        format!("cmm: {file}:{line}: {wrong}: {}{}; {}\n", self.value(), self.of_where(start), self.right())
    }

    /// Is this line the one that the refusal's device and place name, and is a reading wrong there?
    fn agrees(&self) -> bool {
        let Refusal { number, device, place } = self.refusal;
        if number == 12 {
            return device == 0 && place == self.line && (self.due.is_some() || !self.text_ends());
        }
        match self.due.map(|due| due.owner) {
            None => false,
            Some(Owner::Head) => (device, place) == (0, 0),
            Some(Owner::Fuel(fuel)) => (device, place) == (0, fuel),
            Some(Owner::Device(own)) => (device, place) == (own, 0),
            Some(Owner::Check { device: own, check, .. }) => (device, place) == (own, check),
            Some(Owner::Interval { device: own, interval }) => (device, place) == (own, interval) && self.is_outside(),
        }
    }

    fn is_outside(&self) -> bool {
        self.due.is_some_and(|due| due.is_outside(self.bytes.and_then(number_of)))
    }

    pub fn text_ends(&self) -> bool {
        self.bytes.is_none()
    }

    pub fn is_cut(&self) -> bool {
        self.is_quoted() && self.length() > 40
    }

    pub fn lacks_line_end(&self) -> bool {
        self.is_quoted() && self.due.is_some() && self.length() <= 32 && !self.has_line_end
    }

    pub fn has_escape(&self) -> bool {
        self.is_quoted() && self.shown().any(is_escaped)
    }

    pub fn no_position_is_left(&self) -> bool {
        self.refusal.number == 7 && self.due.is_some_and(|due| due.key == "at" && due.least > due.most)
    }

    /// The beginning of the interval that is told, or that the check told stands before.
    pub fn beginning(&self, start: Option<Time>) -> Option<Time> {
        Some(start?.later(15 * self.due?.interval?))
    }

    fn is_quoted(&self) -> bool {
        self.refusal.number == 12 && !self.text_ends()
    }

    fn length(&self) -> usize {
        self.bytes.map_or(0, |bytes| bytes.len())
    }

    /// The bytes that are shown between quotes.
    fn shown(&self) -> impl Iterator<Item = u8> + '_ {
        self.bytes.into_iter().flatten().copied().take(40)
    }

    fn value(&self) -> String {
        if self.text_ends() {
            return "the text ends".to_string();
        }
        if !self.is_quoted() {
            return self.bytes.into_iter().flatten().map(|&byte| byte as char).collect();
        }
        let shown: String = self.shown().map(written).collect();
        let cut = if self.is_cut() { ".." } else { "" };
        let lacking = if self.lacks_line_end() { " without its line end" } else { "" };
        format!("\"{shown}{cut}\"{lacking}")
    }

    fn of_where(&self, start: Option<Time>) -> String {
        let owner = match self.due.map(|due| due.owner) {
            None | Some(Owner::Head) => return String::new(),
            Some(Owner::Fuel(fuel)) => format!("fuel line {fuel}"),
            Some(Owner::Device(device)) => format!("device {device}"),
            Some(Owner::Check { device, instrument, check }) => format!("device {device}, {instrument} check {check}"),
            Some(Owner::Interval { device, interval }) => format!("device {device}, interval {interval}"),
        };
        let beginning = self.beginning(start).map_or(String::new(), |time| format!(", {}", time.text()));
        format!(" ({owner}{beginning})")
    }

    fn right(&self) -> String {
        let Some(Due { key, least, most, .. }) = self.due else {
            return "the record ends with the line before it".to_string();
        };
        if self.refusal.number == 6 {
            return "1 to 5 is right where mine=0".to_string();
        }
        if self.no_position_is_left() {
            return "no position is left after the check before it".to_string();
        }
        let due_key = if self.refusal.number == 12 { format!("{key}= and ") } else { String::new() };
        let note = note(key).map_or(String::new(), |note| format!(", {note}"));
        let missing = if may_be_missing(key) { ", or nothing where it is missing" } else { "" };
        format!("{due_key}{least} to {most} is right{note}{missing}")
    }
}

fn is_escaped(byte: u8) -> bool {
    byte < 32 || byte > 126 || byte == b'\\'
}

fn written(byte: u8) -> String {
    if is_escaped(byte) {
        format!("\\x{byte:02x}")
    } else {
        (byte as char).to_string()
    }
}
