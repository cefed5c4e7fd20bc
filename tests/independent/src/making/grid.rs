//! Grid files: curves at the line, ties for the last windows that are kept, peaks at the seasons' borders and about the
//! clock change, bad readings.

use super::damage::{damage, Layout};
use super::{about_sundays, near, some_position, some_year, spoil, List, Made, Random, MADE_FOR};
use crate::calendar::{period_months, season_of_month};
use crate::editions::Edition;
use crate::layout::{quarters, Sundays};
use crate::windows::GRID_LIMIT;
use crate::QUARTERS;

const HEADER_BORDERS: [usize; 4] = [3, 5, 7, 8];

/// Days count from 1.
struct Period {
    edition: Edition,
    days: u16,
    sundays: Sundays,
    /// the days of each season
    seasons: [Vec<u16>; 4],
    /// the first and the last day of each month
    borders: Vec<u16>,
}

impl Period {
    fn new(edition: Edition, year: u16) -> Period {
        let mut period = Period { edition, days: 0, sundays: Sundays::of_period(year), seasons: Default::default(), borders: Vec::new() };
        for (month, length) in period_months(year) {
            let (first, last) = (period.days + 1, period.days + length);
            period.seasons[season_of_month(month) - 1].extend(first..=last);
            period.borders.extend([first, last]);
            period.days = last;
        }
        period
    }

    fn readings(&self) -> usize {
        self.days as usize * QUARTERS
    }

    /// The highest value that is not above the line of a peak.
    fn line(&self, peak: u32) -> u32 {
        (self.edition.line as u64 * peak as u64 / 100) as u32
    }

    /// A place of the series that stands for a season's quarter.
    fn place(&self, random: &mut Random, season: usize, quarter: usize) -> usize {
        loop {
            let day = *random.pick(&self.seasons[season]);
            let own = quarters(self.sundays.length(day)).into_iter().flatten();
            let positions: Vec<usize> = own.zip(0..).filter(|&(other, _)| other == quarter).map(|(_, position)| position).collect();
            // one Sunday leaves an hour out
            if !positions.is_empty() {
                return self.sundays.start(day) + *random.pick(&positions);
            }
        }
    }
}

fn some_peak(random: &mut Random) -> u32 {
    match random.below(6) {
        0 => GRID_LIMIT,
        1 => random.between(1, 60) as u32,
        2 => 20 * random.between(1, 10_000_000) as u32,
        3 => 20 * random.between(1, 500) as u32,
        _ => random.between(1, GRID_LIMIT as u64) as u32,
    }
}

/// Values at the line, one less, one more.
fn at_the_line(random: &mut Random, period: &Period) -> Vec<u32> {
    let peak = some_peak(random);
    let line = period.line(peak);
    let mut series = vec![random.below(line as u64 / 2 + 1) as u32; period.readings()];
    for _ in 0..random.between(1, 120) {
        let (season, quarter) = (random.below(4) as usize, random.below(QUARTERS as u64) as usize);
        let value = near(random, line as u64).min(peak as u64) as u32;
        series[period.place(random, season, quarter)] = value;
    }
    let (season, quarter) = (random.below(4) as usize, random.below(QUARTERS as u64) as usize);
    series[period.place(random, season, quarter)] = peak;
    series
}

/// In each season about as many quarters above the line as are kept, with few values among them.
fn ties(random: &mut Random, period: &Period) -> Vec<u32> {
    let peak = some_peak(random).max(100);
    let line = period.line(peak);
    let limit = period.edition.limit as usize;
    let mut series = vec![0; period.readings()];
    for season in 0..4 {
        let count = *random.pick(&[0, 1, limit.saturating_sub(2), limit - 1, limit, limit + 1, limit + 2, limit + 3, 60, 95, 96]);
        let count = count.min(QUARTERS);
        let spread = *random.pick(&[1, 1, 2, 3, (peak - line) as u64]);
        let first = random.below(QUARTERS as u64) as usize;
        let step = *random.pick(&[1, 1, 5, 7, 11]);
        for k in 0..count {
            let value = peak - random.below(spread.min((peak - line) as u64)) as u32;
            series[period.place(random, season, (first + k * step) % QUARTERS)] = value;
        }
    }
    series[period.place(random, 0, 0)] = peak;
    series
}

/// High readings on the first and last days of months, so that a day in a wrong season shows.
fn at_the_borders(random: &mut Random, period: &Period) -> Vec<u32> {
    let peak = some_peak(random);
    let mut series = vec![0; period.readings()];
    for &day in &period.borders {
        let near_day = (day + random.below(3) as u16 - 1).clamp(1, period.days);
        let position = random.below(period.sundays.length(near_day) as u64) as usize;
        series[period.sundays.start(near_day) + position] = if random.percent(80) { peak } else { period.line(peak) };
    }
    series
}

/// High readings on the two Sundays of the clock change and on the days about them, so that one that is taken for
/// another quarter's shows; and often two readings of one doubled quarter, on different sides of the line.
fn at_the_clock_change(random: &mut Random, period: &Period) -> Vec<u32> {
    let peak = some_peak(random).max(100);
    let line = period.line(peak);
    let mut series = vec![random.below(line as u64 / 2 + 1) as u32; period.readings()];
    for _ in 0..random.between(1, 10) {
        let day = about_sundays(random, period.sundays);
        let position = some_position(random, period.sundays.length(day));
        series[period.sundays.start(day) + position] = if random.percent(70) { peak } else { near(random, line as u64).min(peak as u64) as u32 };
    }
    if random.percent(60) {
        let first = period.sundays.start(period.sundays.long) + random.between(8, 11) as usize;
        let (low, high) = (*random.pick(&[0, line / 2, line]), *random.pick(&[(line + 1).min(peak), peak]));
        (series[first], series[first + 4]) = if random.percent(50) { (low, high) } else { (high, low) };
    }
    series
}

/// Unbroken runs, midnight among them.
fn runs(random: &mut Random, period: &Period) -> Vec<u32> {
    let peak = some_peak(random);
    let mut series = vec![peak / 2; period.readings()];
    for season in 0..4 {
        for _ in 0..random.below(5) {
            let anywhere = random.below(QUARTERS as u64) as usize;
            let from = *random.pick(&[0, 1, 90, 94, 95, anywhere]);
            for quarter in from..(from + random.between(1, 12) as usize).min(QUARTERS) {
                series[period.place(random, season, quarter)] = peak;
            }
        }
    }
    series
}

fn noise(random: &mut Random, period: &Period) -> Vec<u32> {
    let most = some_peak(random) as u64;
    let least = if random.percent(50) { 0 } else { most * random.between(80, 99) / 100 };
    (0..period.readings()).map(|_| random.between(least, most) as u32).collect()
}

fn flat(random: &mut Random, period: &Period) -> Vec<u32> {
    let mut series = vec![*random.pick(&[0, 0, 0, 1, 1_000, GRID_LIMIT]); period.readings()];
    if random.percent(40) {
        let at = random.below(series.len() as u64) as usize;
        series[at] = *random.pick(&[0, 1, 2, GRID_LIMIT]);
    }
    series
}

fn some_series(random: &mut Random, period: &Period) -> (&'static str, Vec<u32>) {
    match random.below(14) {
        0..=2 => ("at the line", at_the_line(random, period)),
        3..=5 => ("ties", ties(random, period)),
        6 => ("at the borders", at_the_borders(random, period)),
        7 | 8 => ("runs", runs(random, period)),
        9 => ("flat", flat(random, period)),
        10 | 11 => ("at the clock change", at_the_clock_change(random, period)),
        _ => ("noise", noise(random, period)),
    }
}

fn header(random: &mut Random, list: &List) -> (Vec<u8>, u16) {
    let bad = if random.percent(10) { random.below(4) } else { 4 };
    let mark = if bad == 0 { *random.pick(&[b"GRE", b"HLZ", b"CUS", b"grd", b"\0\0\0"]) } else { b"GRD" };
    let version = if bad == 1 { *random.pick(&[0u16, 2, 256, 257, u16::MAX]) } else { 1 };
    let year = if bad == 2 { *random.pick(&[2013u16, 2029, 0, 1, u16::MAX, 2014 + 256]) } else { some_year(random, list) };
    let level = if bad == 3 { *random.pick(&[0u8, 8, 9, 255, 128]) } else { random.between(1, 7) as u8 };
    let mut bytes = mark.to_vec();
    bytes.extend(version.to_be_bytes());
    bytes.extend(year.to_be_bytes());
    bytes.push(level);
    (bytes, year)
}

pub fn grid_file(random: &mut Random, list: &List) -> Made {
    let (mut bytes, year) = header(random, list);
    let period = Period::new(list.edition(year), if MADE_FOR.contains(&year) { year } else { 2020 });
    let (name, mut series) = some_series(random, &period);
    let mut recipe = format!("grid file, {name}");
    if random.percent(12) {
        spoil(random, period.sundays, &mut series, GRID_LIMIT);
        recipe += ", bad readings";
    }
    let layout = Layout { borders: HEADER_BORDERS.to_vec(), days: period.days, sundays: period.sundays, limit: GRID_LIMIT };
    bytes.extend(series.iter().flat_map(|reading| reading.to_be_bytes()));
    if random.percent(45) {
        recipe += damage(random, &mut bytes, &layout);
    }
    Made { recipe, bytes }
}
