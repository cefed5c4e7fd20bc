//! The series that are measured, from a seed.

use crate::calls::Basis;
use independent::calendar::{day_of, period_days, year_days};
use independent::decision::{Prices, Row};
use independent::layout::{self, Sundays};
use independent::making::Random;
use independent::sheet::{Quarters, Sheet};

pub struct Grid {
    pub year: u16,
    pub level: u8,
    pub series: Vec<u32>,
}

pub struct Customer {
    pub year: u16,
    pub basis: Basis,
    pub series: Vec<u32>,
}

const YEAR: u16 = 2025;
const HOLIDAYS: [(usize, u16); 9] = [(1, 1), (4, 18), (4, 21), (5, 1), (5, 29), (6, 9), (10, 3), (12, 25), (12, 26)];

/// A day's course: low at night, highest in the evening.
fn course(quarter: usize) -> u64 {
    match quarter {
        0..=23 => 500,
        24..=67 => 800,
        68..=79 => 970,
        _ => 700,
    }
}

pub fn usual_grid() -> Grid {
    let mut random = Random::new(1);
    let reading = |day: u16, quarter: usize| {
        // the days from 91 to 180 are the high ones: about the period's winter, which begins with day 92
        let height = if (91..181).contains(&day) { 1_000 } else { 930 };
        (course(quarter) * height * random.between(970, 1_000) / 1_000) as u32
    };
    Grid { year: YEAR, level: 5, series: over_period(reading) }
}

pub fn hard_grid() -> Grid {
    let mut random = Random::new(2);
    Grid { year: YEAR, level: 5, series: over_period(|_, _| random.between(0, 200_000_000) as u32) }
}

/// A series by the day, from 1, and the quarter of each reading.
fn by_quarters(days: u16, sundays: Sundays, mut reading: impl FnMut(u16, usize) -> u32) -> Vec<u32> {
    let mut series = Vec::with_capacity(sundays.start(days + 1));
    for day in 1..=days {
        series.extend(layout::quarters(sundays.length(day)).into_iter().flatten().map(|quarter| reading(day, quarter)));
    }
    series
}

fn over_period(reading: impl FnMut(u16, usize) -> u32) -> Vec<u32> {
    by_quarters(period_days(YEAR), Sundays::of_period(YEAR), reading)
}

fn over_year(reading: impl FnMut(u16, usize) -> u32) -> Vec<u32> {
    by_quarters(year_days(YEAR), Sundays::of_year(YEAR), reading)
}

fn basis(seasons: [Quarters; 4]) -> Basis {
    let mut sheet = [0; 56];
    Sheet { year: YEAR, level: 5, seasons }.write(&mut sheet);
    let prices = Prices { low: Row { capacity: 2_000, energy: 4_000 }, high: Row { capacity: 10_000, energy: 800 } };
    Basis { sheet, holidays: HOLIDAYS.map(|(month, day)| day_of(YEAR, month, day)).to_vec(), prices, option: false }
}

fn quarters(range: std::ops::Range<usize>) -> Quarters {
    let mut quarters = Quarters::default();
    range.for_each(|quarter| quarters.set(quarter));
    quarters
}

pub fn usual_customer() -> Customer {
    let mut random = Random::new(3);
    let none = Quarters::default();
    let reading = |_, quarter| (1_000 * (1_000 - course(quarter)) * random.between(900, 1_000) / 1_000) as u32;
    Customer { year: YEAR, basis: basis([quarters(66..80), none, none, quarters(68..76)]), series: over_year(reading) }
}

pub fn hard_customer() -> Customer {
    let mut random = Random::new(4);
    let series = over_year(|_, _| random.between(0, 1_000_000_000) as u32);
    Customer { year: YEAR, basis: basis([quarters(0..40), quarters(30..70), quarters(56..96), quarters(20..60)]), series }
}
