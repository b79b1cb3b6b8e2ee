//! Document 01's numbers: limits of the records, device kinds, factors.

pub const MOST_INTERVALS: u32 = 35_136;
pub const MOST_DEVICES: u32 = 16;
pub const MOST_CHECKS: usize = 32;
pub const MOST_FUELS: usize = 64;

/// The series' missing marks.
pub const FLOW_MISSING: u16 = 65_535;
pub const CH4_MISSING: u16 = 65_535;
pub const TEMP_MISSING: i16 = -32_768;
pub const PRESS_MISSING: u32 = 0;

/// Entries of the rows that the program lends to the record's reader.
pub const PROGRAM_ROW: u64 = 2_976;

/// Thousandths destroyed by a device of this kind.
pub fn thousandths(kind: u32) -> i128 {
    match kind {
        1 => 960,
        2 => 995,
        3 => 936,
        4 => 980,
        5 => 995,
        6 => 960,
        _ => panic!("kind {kind} was not refused"),
    }
}

/// Milligrams of CO2 equivalent of a litre of methane: 667 mg times 21.
pub const BASELINE_MG: i128 = 667 * 21;

/// Four times the milligrams of CO2 of a litre destroyed: 667 mg times 11/4.
pub const CO2_MG_TIMES_4: i128 = 667 * 11;

pub const MG_PER_TONNE: i128 = 1_000_000_000;
