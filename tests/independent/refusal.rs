//! What document 01 answers in place of a sheet: a number, a device and a place.

/// The numbers that are in use. 8 was any wrong reading's; it is given up, and never given again.
pub fn is_given(number: u64) -> bool {
    matches!(number, 1..=7 | 9..=23)
}

#[derive(Clone, Copy, PartialEq, Eq, Debug)]
pub struct Refusal {
    pub number: u32,
    pub device: u64,
    pub place: u64,
}

impl Refusal {
    pub fn new(number: u32, device: usize, place: usize) -> Refusal {
        assert!(is_given(number as u64), "refusal {number} is never given");
        Refusal { number, device: device as u64, place: place as u64 }
    }

    /// The three lines that the program `sheet` prints.
    pub fn text(&self) -> String {
        format!("refusal={}\ndevice={}\nplace={}\n", self.number, self.device, self.place)
    }
}
