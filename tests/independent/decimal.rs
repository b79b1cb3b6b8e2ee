//! Decimals of both texts: no leading zeros, no plus, no minus zero.

/// The number that `text` writes, or nothing if the form is wrong. `text` has at most 38 bytes.
pub fn decimal(text: &[u8]) -> Option<i128> {
    let (negative, digits) = match text.strip_prefix(b"-") {
        Some(rest) => (true, rest),
        None => (false, text),
    };
    if digits.is_empty() || !digits.iter().all(u8::is_ascii_digit) {
        return None;
    }
    if digits[0] == b'0' && (negative || digits.len() > 1) {
        return None;
    }
    let mut value: i128 = 0;
    for digit in digits {
        value = value * 10 + (digit - b'0') as i128;
    }
    Some(if negative { -value } else { value })
}
