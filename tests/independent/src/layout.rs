//! Which reading of a series is which quarter of which day (Rule 2.4). Meters follow legal time: the Sunday on which
//! the clock is set on lacks an hour, and the one on which it is set back has an hour twice.

use crate::calendar::{day_of, last_sunday, year_days};
use crate::QUARTERS;
use std::ops::Range;

/// Readings of the last Sunday in March.
pub const SHORT_DAY: usize = 92;
/// Readings of the last Sunday in October.
pub const LONG_DAY: usize = 100;

/// The quarters of a day's readings, by how many it has: those before the clock is set, and those after it.
pub fn quarters(length: usize) -> [Range<usize>; 2] {
    match length {
        SHORT_DAY => [0..8, 12..QUARTERS],
        LONG_DAY => [0..12, 8..QUARTERS],
        _ => [0..12, 12..QUARTERS],
    }
}

/// The two Sundays of a series. Days count from 1.
#[derive(Clone, Copy, Debug, PartialEq, Eq)]
pub struct Sundays {
    pub short: u16,
    pub long: u16,
}

impl Sundays {
    pub fn of_year(year: u16) -> Sundays {
        Sundays { short: last_sunday(year, 3), long: last_sunday(year, 10) }
    }

    /// October lies in the first of the period's two calendar years, March in the second.
    pub fn of_period(year: u16) -> Sundays {
        let to_august = day_of(year - 2, 8, 31);
        let to_december = year_days(year - 2) - to_august;
        Sundays { short: to_december + last_sunday(year - 1, 3), long: last_sunday(year - 2, 10) - to_august }
    }

    /// Readings of a day.
    pub fn length(self, day: u16) -> usize {
        match day {
            _ if day == self.short => SHORT_DAY,
            _ if day == self.long => LONG_DAY,
            _ => QUARTERS,
        }
    }

    /// Readings before a day.
    pub fn start(self, day: u16) -> usize {
        let lacking = if self.short < day { QUARTERS - SHORT_DAY } else { 0 };
        let more = if self.long < day { LONG_DAY - QUARTERS } else { 0 };
        (day as usize - 1) * QUARTERS + more - lacking
    }

    /// The days of a series, one after the other.
    pub fn days(self, series: &[u32]) -> impl Iterator<Item = &[u32]> {
        let mut left = series;
        (1..).map_while(move |day| {
            let (own, rest) = left.split_at_checked(self.length(day))?;
            left = rest;
            Some(own)
        })
    }
}
