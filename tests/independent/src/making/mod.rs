//! Seeded random and edge-case files, whole, short and damaged.

mod customer;
mod damage;
mod exact;
mod grid;
mod holidays;
mod lists;
mod random;
mod series;

pub use customer::customer_file;
pub use exact::PRICES;
pub use grid::grid_file;
pub use lists::{some_list, List};
pub use random::Random;

use crate::editions::TODAY;
use crate::layout::Sundays;

/// A file, and how it was made.
pub struct Made {
    pub recipe: String,
    pub bytes: Vec<u8>,
}

/// The years that a file may be made for, with an edition or without.
const MADE_FOR: std::ops::RangeInclusive<u16> = 2014..=2061;

/// A charge year of today's edition; leap years and the first and last one often.
fn todays_year(random: &mut Random) -> u16 {
    match random.below(4) {
        0 => *random.pick(&[TODAY.first, TODAY.last, 2016, 2017, 2020, 2021, 2024, 2025]),
        _ => random.between(TODAY.first as u64, TODAY.last as u64) as u16,
    }
}

/// A charge year: of one of the list's records, often of a refused one, and often its first or last one; sometimes a
/// year beside them, which may have no edition.
fn some_year(random: &mut Random, list: &List) -> u16 {
    if list.given == [TODAY] {
        return todays_year(random);
    }
    let refused = list.refused();
    let among = if !refused.is_empty() && random.percent(40) { &refused } else { &list.given };
    let record = *random.pick(among);
    let year = match random.below(10) {
        0..=2 => record.first,
        3..=5 => record.last,
        6 => *random.pick(&[record.first - 1, record.last + 1]),
        _ => random.between(record.first as u64, record.last.max(record.first) as u64) as u16,
    };
    year.clamp(*MADE_FOR.start(), *MADE_FOR.end())
}

/// A number near one that decides: one less, the number itself, one more.
fn near(random: &mut Random, number: u64) -> u64 {
    (number + random.below(3)).saturating_sub(1)
}

/// A reading above a limit.
fn illegal_reading(random: &mut Random, limit: u32) -> u32 {
    match random.below(4) {
        0 => limit + 1,
        1 => u32::MAX,
        2 => *random.pick(&[u32::MAX - 1, 1 << 31, (1 << 31) - 1, limit + 2]),
        _ => random.between(limit as u64 + 1, u32::MAX as u64) as u32,
    }
}

/// A Sunday of the clock change, or a day within a week of one.
fn about_sundays(random: &mut Random, sundays: Sundays) -> u16 {
    let sunday = *random.pick(&[sundays.short, sundays.long]);
    match random.below(3) {
        0 => sunday,
        1 => sunday + 1,
        _ => sunday - 7 + random.below(15) as u16,
    }
}

/// A position in a day of so many readings, often about the hours that the clock change touches, or among the last.
fn some_position(random: &mut Random, length: usize) -> usize {
    match random.below(3) {
        0 => random.between(4, 19) as usize,
        1 => length - random.between(1, 8) as usize,
        _ => random.below(length as u64) as usize,
    }
}

/// Spoils one to three readings, often one at an edge or on a Sunday of the clock change.
fn spoil(random: &mut Random, sundays: Sundays, series: &mut [u32], limit: u32) {
    for _ in 0..random.between(1, 3) {
        let last = series.len() - 1;
        let at = match random.below(6) {
            0 => *random.pick(&[0, 95, 96, last, last - 95, last - 96]),
            1 => {
                let day = about_sundays(random, sundays);
                sundays.start(day) + some_position(random, sundays.length(day))
            }
            _ => random.below(series.len() as u64) as usize,
        };
        series[at] = illegal_reading(random, limit);
    }
}
