//! Classes of files whose text is wrong somewhere: one value, bytes and lines in every way, plain junk.

use crate::draw;
use crate::plain_files;
use crate::record::{joined, Record};
use crate::rng::Rng;

const KEYS: [&str; 16] = [
    "intervals", "devices", "mine", "fuels", "quantity", "factor", "kind", "flow_checks", "at", "drift", "ch4_checks",
    "flow", "ch4", "temp", "press", "status",
];

/// Values of wrong form, of right form in unexpected places, and numbers that wrap to small ones in 8 to 128 bits.
const VALUES: [&str; 25] = [
    "",
    "0",
    "00",
    "01",
    "007",
    "+1",
    "-0",
    "-1",
    "-",
    "--1",
    " 1",
    "1 ",
    "1\r",
    "1.0",
    "1e3",
    "0x1",
    "1\0",
    "1=1",
    "257",
    "65537",
    "4294967297",
    "18446744073709551617",
    "99999999999999999999",
    "340282366920938463463374607431768211457",
    "\u{661}",
];

/// Least and greatest number that a line's form allows, and a series' mark.
fn widths(key: &str) -> (i128, i128, Option<i128>) {
    match key {
        "flow" | "ch4" => (0, 65_535, Some(65_535)),
        "temp" => (-32_768, 32_767, Some(-32_768)),
        "press" => (0, 4_294_967_295, Some(0)),
        "status" => (0, 255, None),
        "drift" => (-2_147_483_648, 2_147_483_647, None),
        "fuels" => (0, 64, None),
        "flow_checks" | "ch4_checks" => (0, 32, None),
        _ => (0, 4_294_967_295, None),
    }
}

/// One line's value replaced, for every key: in turn by one about its width, and by some other.
pub fn values(rng: &Rng, case: usize, _row: u64) -> Vec<u8> {
    let key = KEYS[case / 2 % 16];
    let (low, high, mark) = widths(key);
    let value = match case % 2 * 8 + case / 32 % 8 {
        0 => (high + 1).to_string(),
        1 => mark.unwrap_or(high + 2).to_string(),
        2 => (low - 1).to_string(),
        3 => high.to_string(),
        4 => low.to_string(),
        5 => (high - 1).to_string(),
        6 => String::new(),
        7 => format!("0{}", rng.below(100)),
        // 16 keys and 25 values have no common divisor: in time every value meets every key.
        _ => VALUES[case / 2 % VALUES.len()].to_string(),
    };
    let mut lines = base(rng, 4).lines();
    let head = format!("{key}=");
    let places: Vec<usize> = (0..lines.len()).filter(|&i| lines[i].starts_with(&head)).collect();
    let place = rng.pick(&places);
    lines[place] = head + &value;
    joined(&lines)
}

/// A small record in which every key occurs.
fn base(rng: &Rng, most: usize) -> Record {
    let (n, devices) = (rng.size(1, most), rng.size(1, 3));
    let mut record = draw::record(rng, n, devices);
    if record.fuels.is_empty() {
        record.fuels.push(draw::fuel(rng));
    }
    for device in &mut record.devices {
        for which in 0..2 {
            *device.checks(which) = draw::checks(rng, n, rng.size(1, 3));
        }
    }
    record
}

pub fn texts(rng: &Rng, case: usize, row: u64) -> Vec<u8> {
    let text = match rng.below(20) {
        0 => plain_files::several_devices(rng, case, row).text(),
        1..=3 => base(rng, 120).text(),
        _ => base(rng, 6).text(),
    };
    match case % 2 {
        0 => damaged_bytes(rng, case / 2, text),
        _ => damaged_lines(rng, case / 2, text),
    }
}

fn damaged_bytes(rng: &Rng, way: usize, mut text: Vec<u8>) -> Vec<u8> {
    let at = rng.pick(&[0, text.len() - 1, rng.below(text.len()), rng.below(text.len()), rng.below(text.len())]);
    match way % 15 {
        0 => text[at] ^= 1 << rng.below(8),
        1 => text[at] = rng.next() as u8,
        2 => drop(text.remove(at)),
        3 => text.insert(at, rng.next() as u8),
        4 => text.insert(at, rng.pick(b"0123456789-+= \n\r\t\0")),
        5 => text.truncate(at),
        6 => text.truncate(text.len() - 1),
        7 => text.push(rng.pick(b"\n0s \0\xff")),
        8 => text.extend(b"status=1\n"),
        9 => drop(text.drain(at..(at + rng.size(1, 40)).min(text.len()))),
        10 => {
            let part = text[at..(at + rng.size(1, 40)).min(text.len())].to_vec();
            text.splice(at..at, part);
        }
        11 => text = String::from_utf8(text).unwrap().replace('\n', "\r\n").into_bytes(),
        12 => text.extend(rng.pick(&["\0", "\0\0\0", "\0x\n", "\x1a", "\x04"]).as_bytes()),
        13 => *any_digit(rng, &mut text) |= 0x80,
        _ => *any_digit(rng, &mut text) = rng.pick(b"/:;O \0\xb0\xb9"),
    }
    text
}

fn any_digit<'a>(rng: &Rng, text: &'a mut [u8]) -> &'a mut u8 {
    let digits: Vec<usize> = (0..text.len()).filter(|&at| text[at].is_ascii_digit()).collect();
    &mut text[rng.pick(&digits)]
}

fn damaged_lines(rng: &Rng, way: usize, text: Vec<u8>) -> Vec<u8> {
    let text = String::from_utf8(text).unwrap();
    let mut lines: Vec<String> = text.lines().map(str::to_string).collect();
    let last = lines.len() - 1;
    let at = rng.pick(&[0, 1, 2, 3, last, rng.below(lines.len()), rng.below(lines.len()), rng.below(lines.len())]);
    let other = rng.below(lines.len());
    let equals = lines[at].find('=').unwrap();
    match way % 18 {
        0 => lines.swap(at, other),
        1 => lines.swap(at.max(1), at.max(1) - 1),
        2 => drop(lines.remove(at)),
        3 => lines.insert(at, lines[at].clone()),
        4 => lines.insert(at, String::new()),
        5 => lines.truncate(at),
        6 => return cut_in_line(rng, &lines, at),
        7 => lines[at].push('\r'),
        8 => lines[at].insert(equals, ' '),
        9 => lines[at] = lines[at].replace('=', ""),
        10 => lines[at] = lines[at].to_uppercase(),
        11 => lines[at] = "x".repeat(rng.pick(&[31, 32, 33, 34, 4_096])),
        12 => lines[at].insert_str(equals + 1, &"0".repeat(rng.pick(&[1, 20, 26, 30, 300]))),
        13 => lines[at].insert(equals, rng.pick(&['=', 's', '_', '0'])),
        14 => drop(lines[at].remove(rng.below(equals))),
        15 => lines[at].insert_str(0, rng.pick(&["\u{feff}", " ", "x", "\0"])),
        16 => lines[at] = lines[other].clone(),
        _ => lines.extend((0..rng.size(1, 5)).map(|_| "flow=1".to_string())),
    }
    joined(&lines)
}

/// The text stops inside a line: before its key, in it, at `=`, in the value, before byte 10.
fn cut_in_line(rng: &Rng, lines: &[String], at: usize) -> Vec<u8> {
    let equals = lines[at].find('=').unwrap();
    let length = lines[at].len();
    let kept = rng.pick(&[0, 1, equals, equals + 1, rng.below(length + 1), length]);
    [joined(&lines[..at]), lines[at].as_bytes()[..kept].to_vec()].concat()
}

pub fn junk(rng: &Rng, case: usize, _row: u64) -> Vec<u8> {
    let length = rng.size(1, 400);
    match case % 13 {
        0 => vec![],
        1 => rng.bytes(length),
        2 => rng.bytes(1_000_000),
        3 => b"\n".repeat(length),
        4 => [b"intervals=".to_vec(), b"9".repeat(if rng.chance(4) { 1_000_000 } else { length })].concat(),
        5 => b"intervals=1\n".repeat(length),
        6 => vec![0; length],
        7 => [b"intervals=1\ndevices=1\n".to_vec(), rng.bytes(length)].concat(),
        8 => b"intervals=0\ndevices=1\nmine=0\nfuels=0\nkind=1\nflow_checks=0\nch4_checks=0\n".to_vec(),
        9 => {
            [b"intervals=0\n".to_vec(), rng.pick(&["", "devices", "devices=\n", "devices=-1\n", "x\n"]).into()].concat()
        }
        10 => [base(rng, 6).text(), rng.bytes(300_000)].concat(),
        11 => [b"intervals=2976\ndevices=1\nmine=0\nfuels=0\n".to_vec(), b"kind=1\n".repeat(length)].concat(),
        _ => (0..length).map(|_| rng.pick(b"intervalsdc=0123456789-\n\n")).collect(),
    }
}
