//! Customer series that reach given figures, or that probe the calendar.

use super::Random;
use crate::calendar::{carrying_days, season_of_month, year_days, year_seasons};
use crate::decision::CUSTOMER_LIMIT;
use crate::layout::{quarters, Sundays};
use crate::sheet::Quarters;
use crate::QUARTERS;

/// A year's places, told apart by the windows. Days count from 1.
pub struct Year {
    pub year: u16,
    pub days: u16,
    pub sundays: Sundays,
    pub inside: Vec<usize>,
    pub outside: Vec<usize>,
    /// the places of a day that would be in a window if the day carried any, the first day at place 0
    windows: Vec<Vec<usize>>,
}

impl Year {
    pub fn new(year: u16, seasons: &[Quarters; 4], holidays: &[u16]) -> Year {
        let (carries, sundays) = (carrying_days(year, holidays), Sundays::of_year(year));
        let season_of_day = year_seasons(year).into_iter().flat_map(|(season, days)| (0..days).map(move |_| season - 1));
        let mut made = Year { year, days: year_days(year), sundays, inside: Vec::new(), outside: Vec::new(), windows: Vec::new() };
        for (day, season) in (1..).zip(season_of_day) {
            let places = quarters(sundays.length(day)).into_iter().flatten().zip(sundays.start(day)..);
            let mut windows = Vec::new();
            for (quarter, place) in places {
                let in_window = seasons[season].has(quarter);
                let side = if in_window && carries[day as usize - 1] { &mut made.inside } else { &mut made.outside };
                side.push(place);
                if in_window {
                    windows.push(place);
                }
            }
            made.windows.push(windows);
        }
        made
    }

    pub fn places(&self) -> usize {
        self.days as usize * QUARTERS
    }
}

/// What a series must come to.
#[derive(Clone, Copy)]
pub struct Target {
    pub peak: u32,
    pub in_window: u32,
    pub sum: u64,
}

/// A series with the peak outside the windows, the in-window peak once or more often, and the sum where it can be
/// reached.
pub fn fitted(random: &mut Random, year: &Year, target: &Target) -> Vec<u32> {
    let mut series = vec![0u32; year.places()];
    let mut left = target.sum;
    if !year.inside.is_empty() {
        for _ in 0..*random.pick(&[1, 1, 1, 2, 5]) {
            let at = *random.pick(&year.inside);
            if series[at] == 0 && left >= target.in_window as u64 {
                series[at] = target.in_window;
                left -= target.in_window as u64;
            }
        }
    }
    let top = *random.pick(&year.outside);
    series[top] = target.peak;
    left = left.saturating_sub(target.peak as u64);
    let others = year.outside.len() as u64 - 1;
    let each = (left / others).min(target.peak as u64);
    let mut one_more = if each < target.peak as u64 { left % others } else { 0 };
    for &at in year.outside.iter().filter(|&&at| at != top) {
        series[at] = each as u32 + (one_more > 0) as u32;
        one_more = one_more.saturating_sub(1);
    }
    series
}

/// Days at which calendars go wrong: the year's ends, the ends of February and of seasons, the weeks about the clock
/// change, holidays and their neighbours.
fn delicate_days(random: &mut Random, year: &Year, holidays: &[u16]) -> Vec<u16> {
    let last = year.days;
    let mut days: Vec<u16> = (1..10).chain(last - 10..=last).chain(58..63).collect();
    let mut start = 1;
    for (season_days, month) in year_seasons(year.year).iter().map(|run| run.1).zip(1..) {
        if start > 1 && season_of_month(month) != season_of_month(month - 1) {
            days.extend([start - 1, start]);
        }
        start += season_days;
    }
    let beside: Vec<u16> = holidays.iter().flat_map(|&day| [(day - 1).max(1), day, (day + 1).min(last), (day + 3).min(last)]).collect();
    if random.percent(20) {
        days = [year.sundays.short, year.sundays.long].into_iter().flat_map(|sunday| sunday - 8..sunday + 9).collect();
    } else if !beside.is_empty() && random.percent(70) {
        days = beside;
    }
    (0..random.between(1, 8)).map(|_| *random.pick(&days)).collect()
}

/// The windows' quarters of some delicate days are the year's highest there: the first such day that carries windows
/// has H.
pub fn calendar_probe(random: &mut Random, year: &Year, holidays: &[u16]) -> Vec<u32> {
    let base = random.below(1_000_000) as u32;
    let mut series: Vec<u32> = (0..year.places()).map(|_| random.below(base as u64 + 1) as u32).collect();
    let mut height = base + 1_000;
    for day in delicate_days(random, year, holidays) {
        height += random.between(0, 1_000) as u32;
        for &place in &year.windows[day as usize - 1] {
            if random.percent(80) {
                series[place] = height - random.below(2) as u32;
            }
        }
    }
    if random.percent(80) {
        let at = *random.pick(&year.outside);
        series[at] = height + random.between(0, 4_000_000) as u32;
    }
    series
}

pub fn noise(random: &mut Random, year: &Year) -> Vec<u32> {
    let most = *random.pick(&[1, 3, 100_000, 1_000_000, 50_000_000, CUSTOMER_LIMIT]) as u64;
    (0..year.places()).map(|_| random.between(0, most) as u32).collect()
}

pub fn flat(random: &mut Random, year: &Year) -> Vec<u32> {
    let mut series = vec![*random.pick(&[0, 0, 1, 250_000, CUSTOMER_LIMIT]); year.places()];
    if random.percent(60) {
        let at = *random.pick(&year.outside);
        series[at] = *random.pick(&[0, 1, 99_999, 100_000, 100_001, CUSTOMER_LIMIT]);
    }
    series
}
