//! Every binary32 there is, as one good sample read on its own: a checksum of the answers for each block of 2^20
//! patterns. tests/library/pattern_sums.c prints the same lines by asking the library.

use crate::historian::entry;

const BLOCK: u32 = 1 << 20;
pub const BLOCKS: u32 = 1 << 12;

/// FNV-1a of 64 bits.
pub const BASIS: u64 = 0xcbf2_9ce4_8422_2325;
const PRIME: u64 = 0x100_0000_01b3;

/// One line for each of `count` blocks, from block `first` on.
pub fn print(first: u32, count: u32) -> bool {
    for block in first..first + count {
        println!("{block} {:016x}", sum(block));
    }
    true
}

/// Of each pattern three bytes: the refusal's number or 0, and the entry, low byte first, 0 if refused.
pub fn sum(block: u32) -> u64 {
    let patterns = (0..BLOCK).map(|k| block * BLOCK + k);
    patterns.fold(BASIS, |sum, pattern| {
        let [a, b, c, d] = pattern.to_le_bytes();
        let (number, flow) = entry(&[0, a, b, c, d]).map_or_else(|number| (number, 0), |flow| (0, flow));
        let [low, high] = flow.to_le_bytes();
        with_byte(with_byte(with_byte(sum, number as u8), low), high)
    })
}

pub fn with_byte(sum: u64, byte: u8) -> u64 {
    (sum ^ byte as u64).wrapping_mul(PRIME)
}
