//! Dates and clock times of the Gregorian calendar, as the command's words tell them. No clock is put forward or back.

#[derive(Clone, Copy, Debug, PartialEq, Eq)]
pub struct Time {
    pub year: u32,
    /// From 1, as the day is.
    pub month: u32,
    pub day: u32,
    pub hour: u32,
    pub minute: u32,
}

fn is_leap(year: u32) -> bool {
    year % 4 == 0 && (year % 100 != 0 || year % 400 == 0)
}

pub fn days_of_month(year: u32, month: u32) -> u32 {
    match month {
        2 if is_leap(year) => 29,
        2 => 28,
        4 | 6 | 9 | 11 => 30,
        _ => 31,
    }
}

impl Time {
    /// So many minutes later. A record is a year at most, so the days are counted one by one.
    pub fn later(self, minutes: u64) -> Time {
        let of_day = self.hour as u64 * 60 + self.minute as u64 + minutes;
        let (hour, minute) = (of_day / 60 % 24, of_day % 60);
        let start = Time { hour: hour as u32, minute: minute as u32, ..self };
        (0..of_day / (24 * 60)).fold(start, |time, _| time.next_day())
    }

    fn next_day(self) -> Time {
        if self.day < days_of_month(self.year, self.month) {
            Time { day: self.day + 1, ..self }
        } else if self.month < 12 {
            Time { month: self.month + 1, day: 1, ..self }
        } else {
            Time { year: self.year + 1, month: 1, day: 1, ..self }
        }
    }

    /// YYYY-MM-DDTHH:MM
    pub fn text(self) -> String {
        let Time { year, month, day, hour, minute } = self;
        format!("{year:04}-{month:02}-{day:02}T{hour:02}:{minute:02}")
    }
}
