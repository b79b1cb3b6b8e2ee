//! Record files for the words of the command: what makes one sentence differ from another, each in turn. They come
//! beside the generator's own classes, whose numbers stay as they are.

use crate::draw;
use crate::generate::{class, turn, Class, Generated};
use crate::record::{joined, Check, Record};
use crate::rng::Rng;

type Maker = fn(&Rng, usize) -> Vec<u8>;

const CLASSES: [Class<Maker>; 9] = [
    class("words: text ends", 3, text_ends),
    class("words: long line", 4, long_line),
    class("words: every byte", 4, every_byte),
    class("words: past the end", 2, past_the_end),
    class("words: every key", 4, every_key),
    class("words: checks", 5, checks),
    class("words: drift line", 3, wrong_drift_line),
    class("words: late", 3, late),
    class("words: past a month", 1, past_a_month),
];

pub fn generate(seed: u64, number: usize) -> Generated {
    let (class, case) = turn(&CLASSES, number);
    Generated { class: class.name, bytes: (class.make)(&Rng::new(seed.rotate_left(32), number as u64), case) }
}

/// Every key occurs, and some do of several devices.
fn base(rng: &Rng, n: usize) -> Record {
    let mut record = draw::record(rng, n, rng.size(1, 3));
    record.fuels.push(draw::fuel(rng));
    for device in &mut record.devices {
        for which in 0..2 {
            *device.checks(which) = draw::checks(rng, n, rng.size(1, 3));
        }
    }
    record
}

/// The lines of a small record, and the number of one of them, from 0: any, or any of the first twenty.
fn drawn_line(rng: &Rng) -> (Vec<String>, usize) {
    let lines = base(rng, rng.size(1, 6)).lines();
    let at = rng.below(rng.pick(&[lines.len(), lines.len().min(20)]));
    (lines, at)
}

/// Between two lines, or inside one.
fn text_ends(rng: &Rng, case: usize) -> Vec<u8> {
    let (lines, at) = drawn_line(rng);
    let line = lines[at].as_bytes();
    let kept = [0, rng.size(1, line.len()), line.len()][case % 3];
    [joined(&lines[..at]), line[..kept].to_vec()].concat()
}

/// A line of 30 to 45 bytes, or one much longer, with byte 10, without, and with more after it.
fn long_line(rng: &Rng, case: usize) -> Vec<u8> {
    let (lines, at) = drawn_line(rng);
    let length = if case % 17 == 16 { rng.pick(&[100, 5_000, 300_000]) } else { 30 + case % 17 };
    let mut line = rng.pick(&[lines[at].clone().into_bytes(), vec![], b"%s%n".to_vec()].each_ref()).clone();
    while line.len() < length {
        line.push(rng.pick(&[b'0', b'9', b'x', b'"', b'%', b'\\', 0, 31, 32, 126, 127, 128, 255]));
    }
    let end = [&b"\n"[..], b"", b"\nmine=0\n"][case / 17 % 3];
    [joined(&lines[..at]), line, end.to_vec()].concat()
}

/// Eight bytes in a line; in 32 cases each but byte 10 has its turn.
fn every_byte(rng: &Rng, case: usize) -> Vec<u8> {
    let (lines, at) = drawn_line(rng);
    let all: Vec<u8> = (0..=255).filter(|&byte| byte != 10).collect();
    let bytes: Vec<u8> = (0..8).map(|i| all[(case * 8 + i) % all.len()]).collect();
    let (before, after) = lines[at].as_bytes().split_at(rng.size(0, lines[at].len()));
    let end = rng.pick(&["\n", "\n", ""]).as_bytes();
    [&joined(&lines[..at]), before, &bytes, after, end].concat()
}

/// A whole record, and more: without byte 10 it is still no line that was due.
fn past_the_end(rng: &Rng, case: usize) -> Vec<u8> {
    let more = match case % 8 {
        0 => b"\n".to_vec(),
        1 => b"x".to_vec(),
        2 => b"status=1\n".to_vec(),
        3 => b"flow=1".to_vec(),
        4 => b"\n\n\n".to_vec(),
        5 => rng.bytes(rng.size(1, 60)),
        6 => b"y".repeat(rng.pick(&[31, 32, 33, 39, 40, 41])),
        _ => [b"z".repeat(rng.pick(&[32, 33, 39, 40, 41])), b"\n".to_vec()].concat(),
    };
    [base(rng, rng.size(1, 4)).text(), more].concat()
}

/// A value that its line may not have, or that is out of range.
fn spoilt(rng: &Rng, line: &str, n: usize) -> String {
    let key = line.split('=').next().unwrap();
    let outside = match key {
        "intervals" => 35_137,
        "devices" => 17,
        "mine" => 2,
        "quantity" => 1_000_000_001,
        "factor" => 4_000_001,
        "kind" => 7,
        "at" => n + 1,
        "drift" => 20_001,
        "flow" => 30_001,
        "ch4" | "temp" => 10_001,
        "press" => 300_001,
        "status" => 4,
        _ => 65,
    };
    match rng.below(4) {
        0 => format!("{key}={outside}\r"),
        1 => rng.pick(&["", "=", "x", "%s=%n", "status=", "\"\""]).to_string(),
        _ => format!("{key}={outside}"),
    }
}

/// The first or another line of each key in turn.
fn every_key(rng: &Rng, case: usize) -> Vec<u8> {
    let n = rng.size(1, 5);
    let mut lines = base(rng, n).lines();
    let mut keys: Vec<&str> = lines.iter().map(|line| line.split('=').next().unwrap()).collect();
    keys.sort();
    keys.dedup();
    let head = format!("{}=", keys[case % keys.len()]);
    let places: Vec<usize> = (0..lines.len()).filter(|&at| lines[at].starts_with(&head)).collect();
    let at = rng.pick(&[places[0], rng.pick(&places)]);
    lines[at] = spoilt(rng, &lines[at], n);
    joined(&lines)
}

/// A check that is wrong after some that are right, one at the end of the record now and then among them.
fn checks(rng: &Rng, case: usize) -> Vec<u8> {
    let n = rng.size(3, 400);
    let mut record = base(rng, n);
    let device = rng.below(record.devices.len());
    let which = case % 2;
    let mut list = draw::checks_at(rng, (0..rng.size(1, 4)).map(|_| rng.below(n)).collect());
    let before = list[list.len() - 1].at;
    let end = n as u32;
    let check = |at, drift| Check { at, drift };
    match case / 2 % 9 {
        0 => list.extend([check(end, 0), check(rng.pick(&[end, end + 1, 0, u32::MAX]), 0)]),
        1 => list.extend([check(end, 0), check(end + 1, 20_001)]),
        2 => list.push(check(before, 0)),
        3 => list.push(check(rng.below(before as usize + 1) as u32, -9_001)),
        4 => list.push(check(end + 1, 0)),
        5 => list.push(check(end, rng.pick(&[-9_001, 20_001, i32::MIN, i32::MAX]))),
        6 => list[0].drift = 20_001,
        7 => list[0] = check(end + rng.size(1, 9) as u32, 0),
        _ => list.push(check(rng.size(before as usize + 1, n) as u32, -9_001)),
    }
    *record.devices[device].checks(which) = list;
    record.text()
}

/// A drift line that is wrong, lacking or cut, of a check that stands in the record, at its end or past it.
fn wrong_drift_line(rng: &Rng, case: usize) -> Vec<u8> {
    let n = rng.size(1, 300);
    let mut lines = base(rng, n).lines();
    let places: Vec<usize> = (0..lines.len()).filter(|&at| lines[at].starts_with("drift=")).collect();
    let at = rng.pick(&places);
    let end = n as i64;
    let position = [0, rng.between(0, end), end - 1, end, end + 1, rng.between(end + 1, u32::MAX as i64)][case % 6];
    lines[at - 1] = format!("at={position}");
    lines[at] = rng.pick(&["drift=", "drift=+1", "drift=2147483648", "at=1"]).to_string();
    match rng.below(4) {
        0 => joined(&lines[..at]),
        1 => [joined(&lines[..at]), b"drift=1".to_vec()].concat(),
        _ => joined(&lines),
    }
}

/// A wrong line in the later half of a long record of one device or some.
fn late(rng: &Rng, _case: usize) -> Vec<u8> {
    let devices = rng.pick(&[1, 1, 1, 2, 16]);
    wrong_late(rng, rng.size(1, 2_976 / devices), devices)
}

fn wrong_late(rng: &Rng, n: usize, devices: usize) -> Vec<u8> {
    let mut lines = draw::record(rng, n, devices).lines();
    let at = rng.size(lines.len() / 2, lines.len() - 1);
    lines[at] = spoilt(rng, &lines[at], n);
    joined(&lines)
}

/// More than the program's rows hold: the command reads on. A year comes now and then, and some that are right.
fn past_a_month(rng: &Rng, case: usize) -> Vec<u8> {
    let devices = rng.size(1, 16);
    let n = rng.size(2_976 / devices + 1, 4_000 / devices);
    match case % 4 {
        0 => wrong_late(rng, rng.pick(&[35_136, 35_040, 34_944]), 1),
        1 => draw::record(rng, n, devices).text(),
        _ => wrong_late(rng, n, devices),
    }
}
