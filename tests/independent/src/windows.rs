//! The windows (Rules 4.1 to 4.7): of a whole grid series, and day by day.

use crate::calendar::{period_days, period_months, season_of_month};
use crate::editions::{Edition, Editions, TODAY};
use crate::layout::{quarters, Sundays};
use crate::sheet::{level_allowed, Quarters, Sheet, SHEET_BYTES};
use crate::{bad_day, first_above, Refusal, QUARTERS};

/// kW
pub const GRID_LIMIT: u32 = 200_000_000;

/// The curves of the four seasons, season 1 at place 0.
pub type Curves = [[u32; QUARTERS]; 4];

fn raise(curve: &mut [u32], readings: &[u32]) {
    for (highest, &reading) in curve.iter_mut().zip(readings) {
        *highest = (*highest).max(reading);
    }
}

/// Takes a day into the curve of its season: of a quarter that comes twice both readings.
fn lay(curve: &mut [u32; QUARTERS], readings: &[u32]) {
    if let Ok(day) = <&[u32; QUARTERS]>::try_from(readings) {
        return raise(curve, day);
    }
    let [before, after] = quarters(readings.len());
    let (first, second) = readings.split_at(before.len());
    raise(&mut curve[before], first);
    raise(&mut curve[after], second);
}

/// The curves of a series that has the period's length.
pub fn curves(year: u16, series: &[u32]) -> Curves {
    let mut curves = [[0; QUARTERS]; 4];
    let mut days = Sundays::of_period(year).days(series);
    for (month, length) in period_months(year) {
        let curve = &mut curves[season_of_month(month) - 1];
        days.by_ref().take(length as usize).for_each(|day| lay(curve, day));
    }
    curves
}

pub fn highest(curves: &Curves) -> u32 {
    curves.iter().flatten().copied().max().unwrap_or(0)
}

/// A value on the line is not above it (Rule 4.4).
pub fn above_line(edition: &Edition, curve_value: u32, peak: u32) -> bool {
    100 * curve_value as u64 > edition.line as u64 * peak as u64
}

/// Today's choice.
pub fn kept_quarters(curve: &[u32; QUARTERS], peak: u32) -> Quarters {
    kept_by(&TODAY, curve, peak)
}

/// The quarters above the line; of more than the limit those that Rule 4.5 keeps.
pub fn kept_by(edition: &Edition, curve: &[u32; QUARTERS], peak: u32) -> Quarters {
    let mut above = [0; QUARTERS];
    let mut count = 0;
    for (quarter, &value) in curve.iter().enumerate() {
        if above_line(edition, value, peak) {
            above[count] = quarter;
            count += 1;
        }
    }
    let above = &mut above[..count];
    let most = edition.limit as usize;
    if count > most {
        above.sort_unstable_by_key(|&quarter| (!curve[quarter], quarter));
    }
    let mut kept = Quarters::default();
    for &quarter in above.iter().take(most) {
        kept.set(quarter);
    }
    kept
}

fn sheet_of(edition: &Edition, year: u16, level: u8, curves: &Curves) -> Result<Sheet, Refusal> {
    let peak = highest(curves);
    if peak == 0 {
        return Err(Refusal::ZeroPeak);
    }
    let seasons = [0, 1, 2, 3].map(|at: usize| kept_by(edition, &curves[at], peak));
    Ok(Sheet { year, level, seasons })
}

/// By today's list.
pub fn windows(year: u16, level: u8, series: &[u32], buffer: &mut [u8]) -> Result<Sheet, Refusal> {
    windows_under(&Editions::today(), year, level, series, buffer)
}

/// Order 14, 1, 2, 4, 5, 7 (Rule 8.2). Where it is accepted, the sheet is in the first 56 bytes of the buffer.
pub fn windows_under(editions: &Editions, year: u16, level: u8, series: &[u32], buffer: &mut [u8]) -> Result<Sheet, Refusal> {
    if buffer.len() < SHEET_BYTES {
        return Err(Refusal::ShortBuffer);
    }
    let edition = editions.of_year(year)?;
    if !level_allowed(level) {
        return Err(Refusal::Level);
    }
    if series.len() != period_days(year) as usize * QUARTERS {
        return Err(Refusal::Length);
    }
    let curves = curves(year, series);
    if highest(&curves) > GRID_LIMIT {
        return Err(first_above(Sundays::of_period(year), series, GRID_LIMIT).unwrap_or(Refusal::Length));
    }
    let sheet = sheet_of(&edition, year, level, &curves)?;
    sheet.write(buffer);
    Ok(sheet)
}

/// A grid series day by day, by the edition of its opening.
#[derive(Clone, Copy, Debug, PartialEq, Eq)]
pub struct GridDays {
    edition: Edition,
    year: u16,
    level: u8,
    taken: u16,
    days: u16,
    sundays: Sundays,
    /// the season (from 0) of the next day, and how many days of its month are left
    season: u8,
    month_left: u16,
    curves: Curves,
}

impl GridDays {
    /// The state of a refused opening: each day is 13, and so is closing (Rule 9.5).
    const REFUSED: GridDays = GridDays {
        edition: TODAY,
        year: 0,
        level: 0,
        taken: 1,
        days: 0,
        sundays: Sundays { short: 0, long: 0 },
        season: 0,
        month_left: 0,
        curves: [[0; QUARTERS]; 4],
    };

    /// By today's list.
    pub fn open(year: u16, level: u8) -> (Result<(), Refusal>, GridDays) {
        GridDays::open_under(&Editions::today(), year, level)
    }

    pub fn open_under(editions: &Editions, year: u16, level: u8) -> (Result<(), Refusal>, GridDays) {
        let edition = match editions.of_year(year) {
            Ok(edition) => edition,
            Err(refusal) => return (Err(refusal), GridDays::REFUSED),
        };
        if !level_allowed(level) {
            return (Err(Refusal::Level), GridDays::REFUSED);
        }
        let (month, month_left) = period_months(year)[0];
        let season = season_of_month(month) as u8 - 1;
        let (days, sundays) = (period_days(year), Sundays::of_period(year));
        (Ok(()), GridDays { edition, year, level, taken: 0, days, sundays, season, month_left, ..GridDays::REFUSED })
    }

    pub fn days(&self) -> u16 {
        self.days
    }

    pub fn day(&mut self, readings: &[u32]) -> Result<(), Refusal> {
        if self.taken >= self.days {
            return Err(Refusal::Sequence);
        }
        let number = self.taken + 1;
        if readings.len() != self.sundays.length(number) {
            return Err(Refusal::Length);
        }
        let highest = match <&[u32; QUARTERS]>::try_from(readings) {
            Ok(day) => day.iter().copied().max(),
            Err(_) => readings.iter().copied().max(),
        };
        if highest.unwrap_or(0) > GRID_LIMIT {
            return Err(bad_day(number, readings, GRID_LIMIT));
        }
        lay(&mut self.curves[self.season as usize], readings);
        self.taken = number;
        self.month_left -= 1;
        if self.month_left == 0 && self.taken < self.days {
            self.next_month();
        }
        Ok(())
    }

    fn next_month(&mut self) {
        let mut before = 0;
        for (month, days) in period_months(self.year) {
            if before == self.taken {
                self.season = season_of_month(month) as u8 - 1;
                self.month_left = days;
            }
            before += days;
        }
    }

    pub fn close(&self, buffer: &mut [u8]) -> Result<Sheet, Refusal> {
        if buffer.len() < SHEET_BYTES {
            return Err(Refusal::ShortBuffer);
        }
        if self.taken != self.days {
            return Err(Refusal::Sequence);
        }
        let sheet = sheet_of(&self.edition, self.year, self.level, &self.curves)?;
        sheet.write(buffer);
        Ok(sheet)
    }
}
