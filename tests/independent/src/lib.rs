//! A second implementation of the rules (docs/RULES.md): what the two programs must print, for any file. It was written
//! from the rules alone, in an earlier wording of them, and moved by the requests that changed them, not by the code.
//! The comparison (tests/compare) holds the proved programs to it, and the benchmark (bench/run) measures beside it.
//! A call that does not name an edition, or a list of them, goes by today's.

pub mod calendar;
pub mod decision;
pub mod editions;
pub mod files;
pub mod layout;
pub mod sheet;
pub mod windows;

pub mod making;

use layout::Sundays;

/// Quarters of a day: they count from 0 to 95. All days of a year but two have one reading for each (layout).
pub const QUARTERS: usize = 96;

/// The numbered answers without charge figures (Rule 8.1).
#[derive(Clone, Copy, Debug, PartialEq, Eq)]
pub enum Refusal {
    Year,
    Level,
    Holidays,
    Length,
    /// day from 1, position in the day from 0
    Reading {
        day: u16,
        position: u8,
    },
    Price,
    ZeroPeak,
    Malformed,
    Sequence,
    ShortBuffer,
    Edition,
}

impl Refusal {
    pub fn number(self) -> u8 {
        match self {
            Refusal::Year => 1,
            Refusal::Level => 2,
            Refusal::Holidays => 3,
            Refusal::Length => 4,
            Refusal::Reading { .. } => 5,
            Refusal::Price => 6,
            Refusal::ZeroPeak => 7,
            Refusal::Malformed => 12,
            Refusal::Sequence => 13,
            Refusal::ShortBuffer => 14,
            Refusal::Edition => 22,
        }
    }
}

/// The first reading of a series above its limit.
pub fn first_above(sundays: Sundays, series: &[u32], limit: u32) -> Option<Refusal> {
    let at = series.iter().position(|&reading| reading > limit)?;
    let mut day = 1;
    while sundays.start(day + 1) <= at {
        day += 1;
    }
    Some(Refusal::Reading { day, position: (at - sundays.start(day)) as u8 })
}

/// The refusal of a day that has a reading above the limit.
pub fn bad_day(day: u16, readings: &[u32], limit: u32) -> Refusal {
    let position = readings.iter().position(|&reading| reading > limit).unwrap_or(0) as u8;
    Refusal::Reading { day, position }
}
