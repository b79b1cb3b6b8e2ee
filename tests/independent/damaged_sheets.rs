//! The generator of sheets: written with figures of every size, then damaged.

use crate::rng::Rng;
use crate::sheet::{limits, sheet_text, LINES};

pub fn generate(seed: u64, number: usize) -> (&'static str, Vec<u8>) {
    let rng = Rng::new(seed ^ 0x5EE7, number as u64);
    let numbers = LINES.map(|(_, signed)| figure(&rng, signed));
    let text = sheet_text(&numbers).into_bytes();
    match number % 4 {
        0 => ("sheet", text),
        1 => ("sheet, damaged bytes", damaged_bytes(&rng, number / 4, text)),
        2 => ("sheet, damaged number", damaged_number(&rng, number / 4, text)),
        _ => ("sheet, damaged lines", damaged_lines(&rng, number / 4, text)),
    }
}

/// Any size of number, and the ends of the range.
fn figure(rng: &Rng, signed: bool) -> i128 {
    let (low, high) = limits(signed);
    let any = (rng.next() >> rng.below(64)) as i128;
    match rng.below(6) {
        0 => 0,
        1 => high,
        2 => low,
        3 => high - rng.below(10) as i128,
        _ if signed => (any >> 1) * rng.pick(&[1, -1]),
        _ => any,
    }
}

fn damaged_bytes(rng: &Rng, way: usize, mut text: Vec<u8>) -> Vec<u8> {
    let at = rng.below(text.len());
    match way % 8 {
        0 => text[at] ^= 1 << rng.below(8),
        1 => text[at] = rng.next() as u8,
        2 => drop(text.remove(at)),
        3 => text.insert(at, rng.pick(b"0123456789-+= \n\r\0")),
        4 => text.truncate(at),
        5 => text.truncate(text.len() - 1),
        6 => text.push(rng.pick(b"\n0c\0")),
        _ => text = rng.bytes(at),
    }
    text
}

/// One value replaced: leading zeros, signs, one past the range, digits too many.
fn damaged_number(rng: &Rng, way: usize, text: Vec<u8>) -> Vec<u8> {
    let text = String::from_utf8(text).unwrap();
    let mut lines: Vec<String> = text.lines().map(str::to_string).collect();
    let at = if way % 3 == 0 { rng.pick(&[12, 13]) } else { rng.below(15) };
    let (low, high) = limits(LINES[at].1);
    let value = match way % 12 {
        0 => (high + 1).to_string(),
        1 => (low - 1).to_string(),
        2 => "-0".to_string(),
        3 => format!("0{}", rng.below(10)),
        4 => "+1".to_string(),
        5 => "-".to_string(),
        6 => String::new(),
        7 => format!("{high}0"),
        8 => format!("{low}0"),
        9 => (u64::MAX as i128 + 1 + rng.below(9) as i128).to_string(),
        10 => format!("-{}", rng.below(1_000)),
        _ => format!("{} ", rng.below(1_000)),
    };
    lines[at] = format!("{}={value}", LINES[at].0);
    lines.join("\n").into_bytes().into_iter().chain([b'\n']).collect()
}

fn damaged_lines(rng: &Rng, way: usize, text: Vec<u8>) -> Vec<u8> {
    let text = String::from_utf8(text).unwrap();
    let mut lines: Vec<&str> = text.lines().collect();
    let (at, other) = (rng.below(15), rng.below(15));
    match way % 6 {
        0 => lines.swap(at, other),
        1 => drop(lines.remove(at)),
        2 => lines.insert(at, lines[at]),
        3 => lines.insert(at, ""),
        4 => lines.truncate(at),
        _ => return text.replace('\n', "\r\n").into_bytes(),
    }
    lines.iter().flat_map(|line| [line.as_bytes(), b"\n"].concat()).collect()
}
