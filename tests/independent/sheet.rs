//! The sheet: its figures written as text, and text read back (or refusal 10's byte offset).

#[derive(Clone, Copy, Debug, Default, PartialEq, Eq)]
pub struct Figures {
    pub intervals: i128,
    pub devices: i128,
    pub counted: i128,
    pub replaced: i128,
    pub excluded: i128,
    pub methane_l: i128,
    pub destroyed_l: i128,
    pub uncombusted_l: i128,
    pub baseline_mg: i128,
    pub co2_mg: i128,
    pub uncombusted_mg: i128,
    pub fuel_mg: i128,
    pub reduction_mg: i128,
    pub tonnes: i128,
    pub credits: i128,
}

/// The lines in order, and whether a line's number is signed.
pub const LINES: [(&str, bool); 15] = [
    ("intervals", false),
    ("devices", false),
    ("counted", false),
    ("replaced", false),
    ("excluded", false),
    ("methane_l", false),
    ("destroyed_l", false),
    ("uncombusted_l", false),
    ("baseline_mg", false),
    ("co2_mg", false),
    ("uncombusted_mg", false),
    ("fuel_mg", false),
    ("reduction_mg", true),
    ("tonnes", true),
    ("credits", false),
];

/// Least and greatest number of a line.
pub fn limits(signed: bool) -> (i128, i128) {
    if signed {
        (i64::MIN as i128, i64::MAX as i128)
    } else {
        (0, u64::MAX as i128)
    }
}

impl Figures {
    pub fn numbers(&self) -> [i128; 15] {
        [
            self.intervals, self.devices, self.counted, self.replaced, self.excluded, self.methane_l, self.destroyed_l,
            self.uncombusted_l, self.baseline_mg, self.co2_mg, self.uncombusted_mg, self.fuel_mg, self.reduction_mg,
            self.tonnes, self.credits,
        ]
    }
}

pub fn sheet_text(numbers: &[i128; 15]) -> String {
    LINES.iter().zip(numbers).map(|((key, _), number)| format!("{key}={number}\n")).collect()
}

/// The fifteen numbers, or the offset of the first byte that no sheet could have there.
pub fn read_sheet(text: &[u8]) -> Result<[i128; 15], usize> {
    let mut numbers = [0; 15];
    let mut at = 0;
    for (number, (key, signed)) in numbers.iter_mut().zip(LINES) {
        for wanted in key.bytes().chain([b'=']) {
            if text.get(at) != Some(&wanted) {
                return Err(at);
            }
            at += 1;
        }
        *number = read_number(text, &mut at, signed)?;
    }
    if at < text.len() {
        Err(at)
    } else {
        Ok(numbers)
    }
}

/// A number up to and with its byte 10. Every digit must leave a number in range, and a zero stands alone.
fn read_number(text: &[u8], at: &mut usize, signed: bool) -> Result<i128, usize> {
    let (low, high) = limits(signed);
    let negative = signed && text.get(*at) == Some(&b'-');
    if negative {
        *at += 1;
    }
    let first = *at;
    let mut number = 0;
    loop {
        match text.get(*at) {
            Some(b'\n') if *at > first => break,
            Some(digit @ b'0'..=b'9') => {
                let value = (digit - b'0') as i128;
                number = number * 10 + if negative { -value } else { value };
                let after_zero = *at > first && text[first] == b'0';
                if after_zero || number < low || number > high || (negative && number == 0) {
                    return Err(*at);
                }
            }
            _ => return Err(*at),
        }
        *at += 1;
    }
    *at += 1;
    Ok(number)
}
