//! A customer's year and the decision (Rules 6.1 to 7.7): over a whole series, and day by day.

use crate::calendar::{carrying_days, holidays_allowed, season_of_month, year_days, year_seasons, LONGEST_YEAR};
use crate::editions::{Edition, Editions, TODAY};
use crate::layout::Sundays;
use crate::sheet::Sheet;
use crate::{bad_day, first_above, Refusal, QUARTERS};

/// W
pub const CUSTOMER_LIMIT: u32 = 1_000_000_000;
/// cent for one kW a year
pub const CAPACITY_LIMIT: u32 = 100_000;
/// thousandths of a cent for one kWh
pub const ENERGY_LIMIT: u32 = 50_000;

#[derive(Clone, Copy, Debug, Default, PartialEq, Eq)]
pub struct Row {
    pub capacity: u32,
    pub energy: u32,
}

impl Row {
    pub fn allowed(self) -> bool {
        self.capacity <= CAPACITY_LIMIT && self.energy <= ENERGY_LIMIT
    }

    /// Whole cents, half a cent up (Rule 7.1).
    fn charge(self, capacity_figure: u32, sum: u64) -> u64 {
        let exact = 4_000 * capacity_figure as u64 * self.capacity as u64 + sum * self.energy as u64;
        (exact + 2_000_000) / 4_000_000
    }
}

#[derive(Clone, Copy, Debug, Default, PartialEq, Eq)]
pub struct Prices {
    pub low: Row,
    pub high: Row,
}

/// The highest in-window reading and its first place: day from 1, quarter from 0.
#[derive(Clone, Copy, Debug, PartialEq, Eq)]
pub struct InWindow {
    pub reading: u32,
    pub day: u16,
    pub quarter: u8,
}

/// A year's figures: M, S, and H with day and quarter.
#[derive(Clone, Copy, Debug, Default, PartialEq, Eq)]
pub struct Figures {
    pub peak: u32,
    pub sum: u64,
    pub in_window: Option<InWindow>,
}

#[derive(Clone, Copy, Debug, PartialEq, Eq)]
pub enum Decision {
    Accepted { charge: u64, general: u64, peak: u32, sum: u64, in_window: InWindow },
    Refused(Refusal),
    NoWindow { general: u64, peak: u32, sum: u64 },
    ShareNotReached { general: u64, peak: u32, sum: u64, in_window: InWindow },
    TooLittleMoved { general: u64, peak: u32, sum: u64, in_window: InWindow },
    TooLittleReduced { general: u64, peak: u32, sum: u64, in_window: InWindow },
}

/// By today's edition.
pub fn judge(level: u8, prices: &Prices, option: bool, figures: &Figures) -> Decision {
    judge_by(&TODAY, level, prices, option, figures)
}

/// The rules over a year's figures (Rules 7.1 to 7.7).
pub fn judge_by(edition: &Edition, level: u8, prices: &Prices, option: bool, figures: &Figures) -> Decision {
    let Figures { peak, sum, in_window } = *figures;
    let short_use = sum < 4 * edition.hours as u64 * peak as u64;
    let row = if short_use { prices.low } else { prices.high };
    let general = row.charge(peak, sum);
    let Some(in_window) = in_window else {
        return Decision::NoWindow { general, peak, sum };
    };
    let moved = (peak - in_window.reading) as u64;
    if 100 * moved < edition.share(level) * peak as u64 {
        return Decision::ShareNotReached { general, peak, sum, in_window };
    }
    if moved < edition.least_moved as u64 {
        return Decision::TooLittleMoved { general, peak, sum, in_window };
    }
    let reduced_row = if option { prices.high } else { row };
    let reduced = reduced_row.charge(in_window.reading, sum);
    let floor = (edition.floor as u64 * general).div_ceil(100);
    let charge = reduced.max(floor);
    if general < charge + edition.least_reduction as u64 {
        return Decision::TooLittleReduced { general, peak, sum, in_window };
    }
    Decision::Accepted { charge, general, peak, sum, in_window }
}

/// Four legal readings fit 32 bits, so only their sums are widened. With an illegal reading the sum may be another;
/// then it is not asked for.
fn sum(day: &[u32; QUARTERS]) -> u64 {
    const PART: usize = QUARTERS / 4;
    let four = |at: usize| day[at].wrapping_add(day[at + PART]).wrapping_add(day[at + 2 * PART]).wrapping_add(day[at + 3 * PART]);
    (0..PART).map(|at| four(at) as u64).sum()
}

fn highest(day: &[u32; QUARTERS]) -> u32 {
    day.iter().copied().fold(0, u32::max)
}

fn highest_masked(day: &[u32; QUARTERS], mask: &[u32; QUARTERS]) -> u32 {
    day.iter().zip(mask).fold(0, |highest, (&reading, &bits)| highest.max(reading & bits))
}

impl Figures {
    fn take(&mut self, day: &[u32; QUARTERS]) {
        self.peak = self.peak.max(highest(day));
        self.sum += sum(day);
    }

    /// A Sunday of the clock change: no Sunday carries windows.
    fn take_sunday(&mut self, day: &[u32]) {
        self.peak = day.iter().copied().fold(self.peak, u32::max);
        self.sum += day.iter().map(|&reading| reading as u64).sum::<u64>();
    }

    /// A day that carries windows, in a season that has some.
    fn take_in_window(&mut self, number: u16, day: &[u32; QUARTERS], mask: &[u32; QUARTERS]) {
        let reading = highest_masked(day, mask);
        if self.in_window.is_none_or(|highest| highest.reading < reading) {
            let is_first = |quarter: &usize| mask[*quarter] != 0 && day[*quarter] == reading;
            let quarter = (0..QUARTERS).find(is_first).unwrap_or(0) as u8;
            self.in_window = Some(InWindow { reading, day: number, quarter });
        }
    }
}

/// What a year is decided by, readings aside.
#[derive(Clone, Copy, Debug, PartialEq, Eq)]
pub struct Terms {
    edition: Edition,
    sheet: Sheet,
    option: bool,
    prices: Prices,
    sundays: Sundays,
    carries: [bool; LONGEST_YEAR],
    masks: [[u32; QUARTERS]; 4],
}

impl Terms {
    /// The sheet's tests, then 3, then 6.
    pub fn new(editions: &Editions, sheet: &[u8], option: bool, holidays: &[u16], prices: &Prices) -> Result<Terms, Refusal> {
        let sheet = Sheet::read(editions, sheet)?;
        let edition = editions.of_year(sheet.year)?;
        if !holidays_allowed(sheet.year, holidays) {
            return Err(Refusal::Holidays);
        }
        if !(prices.low.allowed() && prices.high.allowed()) {
            return Err(Refusal::Price);
        }
        let masks = sheet.seasons.map(|quarters| quarters.mask());
        let sundays = Sundays::of_year(sheet.year);
        Ok(Terms { edition, sheet, option, prices: *prices, sundays, carries: carrying_days(sheet.year, holidays), masks })
    }

    fn days(&self) -> u16 {
        year_days(self.sheet.year)
    }

    /// The figures of a series that has the year's length.
    fn figures(&self, series: &[u32]) -> Figures {
        let mut figures = Figures::default();
        let mut days = self.sundays.days(series).zip(self.carries).zip(1..);
        for (season, length) in year_seasons(self.sheet.year) {
            let has_windows = !self.sheet.seasons[season - 1].is_empty();
            for ((readings, carries), number) in days.by_ref().take(length as usize) {
                let Ok(day) = <&[u32; QUARTERS]>::try_from(readings) else {
                    figures.take_sunday(readings);
                    continue;
                };
                figures.take(day);
                if carries && has_windows {
                    figures.take_in_window(number, day, &self.masks[season - 1]);
                }
            }
        }
        figures
    }

    fn decide(&self, figures: &Figures) -> Decision {
        judge_by(&self.edition, self.sheet.level, &self.prices, self.option, figures)
    }
}

/// By today's list.
pub fn decide(sheet: &[u8], option: bool, holidays: &[u16], prices: &Prices, series: &[u32]) -> Decision {
    decide_under(&Editions::today(), sheet, option, holidays, prices, series)
}

/// Rule 8.2: as for reading a sheet (12, 1, 2, 12), then 3, 6, 4, 5, 8, 9, 10, 11.
pub fn decide_under(editions: &Editions, sheet: &[u8], option: bool, holidays: &[u16], prices: &Prices, series: &[u32]) -> Decision {
    let terms = match Terms::new(editions, sheet, option, holidays, prices) {
        Ok(terms) => terms,
        Err(refusal) => return Decision::Refused(refusal),
    };
    if series.len() != terms.days() as usize * QUARTERS {
        return Decision::Refused(Refusal::Length);
    }
    let figures = terms.figures(series);
    if figures.peak > CUSTOMER_LIMIT {
        return Decision::Refused(first_above(terms.sundays, series, CUSTOMER_LIMIT).unwrap_or(Refusal::Length));
    }
    terms.decide(&figures)
}

/// A customer's year day by day. A refused opening has no terms: each day is 13, and so is closing (Rule 9.5).
#[derive(Clone, Copy, Debug, PartialEq, Eq)]
pub struct CustomerDays {
    terms: Option<Terms>,
    taken: u16,
    /// the month of the next day, from 1, and how many of its days are left
    month: usize,
    month_left: u16,
    figures: Figures,
}

impl CustomerDays {
    /// By today's list.
    pub fn open(sheet: &[u8], option: bool, holidays: &[u16], prices: &Prices) -> (Result<(), Refusal>, CustomerDays) {
        CustomerDays::open_under(&Editions::today(), sheet, option, holidays, prices)
    }

    pub fn open_under(editions: &Editions, sheet: &[u8], option: bool, holidays: &[u16], prices: &Prices) -> (Result<(), Refusal>, CustomerDays) {
        let opened = Terms::new(editions, sheet, option, holidays, prices);
        let state = CustomerDays { terms: opened.ok(), taken: 0, month: 1, month_left: 31, figures: Figures::default() };
        (opened.map(|_| ()), state)
    }

    pub fn day(&mut self, readings: &[u32]) -> Result<(), Refusal> {
        let Some(terms) = &self.terms else {
            return Err(Refusal::Sequence);
        };
        if self.taken >= terms.days() {
            return Err(Refusal::Sequence);
        }
        let number = self.taken + 1;
        if readings.len() != terms.sundays.length(number) {
            return Err(Refusal::Length);
        }
        if let Ok(day) = <&[u32; QUARTERS]>::try_from(readings) {
            if highest(day) > CUSTOMER_LIMIT {
                return Err(bad_day(number, day, CUSTOMER_LIMIT));
            }
            self.figures.take(day);
            let season = season_of_month(self.month) - 1;
            if terms.carries[self.taken as usize] && !terms.sheet.seasons[season].is_empty() {
                self.figures.take_in_window(number, day, &terms.masks[season]);
            }
        } else {
            if readings.iter().any(|&reading| reading > CUSTOMER_LIMIT) {
                return Err(bad_day(number, readings, CUSTOMER_LIMIT));
            }
            self.figures.take_sunday(readings);
        }
        let year = terms.sheet.year;
        self.taken = number;
        self.month_left -= 1;
        if self.month_left == 0 && self.month < 12 {
            self.month += 1;
            self.month_left = crate::calendar::month_days(year, self.month);
        }
        Ok(())
    }

    pub fn close(&self) -> Decision {
        match &self.terms {
            Some(terms) if self.taken == terms.days() => terms.decide(&self.figures),
            _ => Decision::Refused(Refusal::Sequence),
        }
    }
}
