//! What each program prints for the bytes of a file (Rules 10.1 to 10.7).

use crate::calendar::{holidays_allowed, year_days, MOST_HOLIDAYS};
use crate::decision::{CustomerDays, Decision, InWindow, Prices, Row, CAPACITY_LIMIT, ENERGY_LIMIT};
use crate::editions::{Edition, Editions};
use crate::layout::Sundays;
use crate::sheet::{level_allowed, Quarters, Sheet, SHEET_BYTES, VERSION};
use crate::windows::GridDays;
use crate::{Refusal, QUARTERS};
use std::fmt::Write;

pub const READING_BYTES: usize = 4;

/// The bytes that are left to read. A field that the end cuts off is 12.
struct Reader<'a> {
    left: &'a [u8],
}

impl<'a> Reader<'a> {
    fn field(&mut self, width: usize) -> Result<&'a [u8], Refusal> {
        if self.left.len() < width {
            return Err(Refusal::Malformed);
        }
        let (field, rest) = self.left.split_at(width);
        self.left = rest;
        Ok(field)
    }

    fn byte(&mut self) -> Result<u8, Refusal> {
        Ok(self.field(1)?[0])
    }

    fn number16(&mut self) -> Result<u16, Refusal> {
        let field = self.field(2)?;
        Ok(u16::from_be_bytes([field[0], field[1]]))
    }

    fn number32(&mut self) -> Result<u32, Refusal> {
        let field = self.field(4)?;
        Ok(u32::from_be_bytes([field[0], field[1], field[2], field[3]]))
    }

    fn mark_and_version(&mut self, mark: &[u8; 3]) -> Result<(), Refusal> {
        if self.field(3)? != mark || self.number16()? != VERSION {
            return Err(Refusal::Malformed);
        }
        Ok(())
    }

    /// The year picks the edition.
    fn year_and_level(&mut self, editions: &Editions) -> Result<(u16, Edition, u8), Refusal> {
        let year = self.number16()?;
        let edition = editions.of_year(year)?;
        let level = self.byte()?;
        if !level_allowed(level) {
            return Err(Refusal::Level);
        }
        Ok((year, edition, level))
    }

    fn day(&mut self, length: usize) -> Result<Vec<u32>, Refusal> {
        let bytes = self.field(length * READING_BYTES).map_err(|_| Refusal::Length)?;
        Ok(bytes.chunks_exact(READING_BYTES).map(|field| u32::from_be_bytes([field[0], field[1], field[2], field[3]])).collect())
    }

    fn end(&self) -> Result<(), Refusal> {
        if self.left.is_empty() {
            Ok(())
        } else {
            Err(Refusal::Length)
        }
    }
}

fn grid_sheet(editions: &Editions, bytes: &[u8]) -> Result<Sheet, Refusal> {
    let mut file = Reader { left: bytes };
    file.mark_and_version(b"GRD")?;
    let (year, _, level) = file.year_and_level(editions)?;
    let (opened, mut state) = GridDays::open_under(editions, year, level);
    opened?;
    let sundays = Sundays::of_period(year);
    for day in 1..=state.days() {
        state.day(&file.day(sundays.length(day))?)?;
    }
    file.end()?;
    state.close(&mut [0; SHEET_BYTES])
}

/// The sheet field by field; hands back its bytes and its year.
fn sheet_fields<'a>(editions: &Editions, file: &mut Reader<'a>) -> Result<(&'a [u8], u16), Refusal> {
    let start = file.left;
    file.mark_and_version(b"HLZ")?;
    let (year, edition, _) = file.year_and_level(editions)?;
    for _ in 0..4 {
        if Quarters::from_bytes(file.field(QUARTERS / 8)?).count() > edition.limit as u32 {
            return Err(Refusal::Malformed);
        }
    }
    Ok((&start[..SHEET_BYTES], year))
}

fn option_field(file: &mut Reader) -> Result<bool, Refusal> {
    match file.byte()? {
        0 => Ok(false),
        1 => Ok(true),
        _ => Err(Refusal::Malformed),
    }
}

fn holiday_fields(file: &mut Reader, year: u16) -> Result<Vec<u16>, Refusal> {
    let count = file.byte()? as usize;
    if count > MOST_HOLIDAYS {
        return Err(Refusal::Holidays);
    }
    let mut holidays = Vec::with_capacity(count);
    for _ in 0..count {
        holidays.push(file.number16()?);
        if !holidays_allowed(year, &holidays) {
            return Err(Refusal::Holidays);
        }
    }
    Ok(holidays)
}

fn price_field(file: &mut Reader, limit: u32) -> Result<u32, Refusal> {
    let price = file.number32()?;
    if price > limit {
        return Err(Refusal::Price);
    }
    Ok(price)
}

fn row_fields(file: &mut Reader) -> Result<Row, Refusal> {
    let capacity = price_field(file, CAPACITY_LIMIT)?;
    let energy = price_field(file, ENERGY_LIMIT)?;
    Ok(Row { capacity, energy })
}

fn customer_decision(editions: &Editions, bytes: &[u8]) -> Result<Decision, Refusal> {
    let mut file = Reader { left: bytes };
    file.mark_and_version(b"CUS")?;
    let (sheet, year) = sheet_fields(editions, &mut file)?;
    let option = option_field(&mut file)?;
    let holidays = holiday_fields(&mut file, year)?;
    let prices = Prices { low: row_fields(&mut file)?, high: row_fields(&mut file)? };
    let (opened, mut state) = CustomerDays::open_under(editions, sheet, option, &holidays, &prices);
    opened?;
    let sundays = Sundays::of_year(year);
    for day in 1..=year_days(year) {
        state.day(&file.day(sundays.length(day))?)?;
    }
    file.end()?;
    Ok(state.close())
}

/// The time at which a quarter, from 0, begins; 96 is 24:00.
fn clock(quarter: usize) -> String {
    format!("{:02}:{:02}", quarter / 4, quarter % 4 * 15)
}

fn season_lines(number: usize, windows: Quarters, text: &mut String) {
    if windows.is_empty() {
        let _ = writeln!(text, "{number} none");
    }
    let mut from = 0;
    while from < QUARTERS {
        let mut to = from;
        while to < QUARTERS && windows.has(to) {
            to += 1;
        }
        if to > from {
            let _ = writeln!(text, "{number} {}-{}", clock(from), clock(to));
        }
        from = to + 1;
    }
}

fn sheet_text(sheet: &Sheet) -> String {
    let mut text = format!("HLZ {} {}\n", sheet.year, sheet.level);
    for (at, &windows) in sheet.seasons.iter().enumerate() {
        season_lines(at + 1, windows, &mut text);
    }
    text
}

fn refusal_text(refusal: Refusal) -> String {
    match refusal {
        Refusal::Reading { day, position } => format!("5 {day} {position}\n"),
        other => format!("{}\n", other.number()),
    }
}

/// What the window program prints.
pub fn window_program(bytes: &[u8]) -> String {
    windows_text(&Editions::today(), bytes)
}

/// The text of a grid file by a list of editions.
pub fn windows_text(editions: &Editions, bytes: &[u8]) -> String {
    match grid_sheet(editions, bytes) {
        Ok(sheet) => sheet_text(&sheet),
        Err(refusal) => format!("REFUSED {}", refusal_text(refusal)),
    }
}

fn figures_text(number: u8, figures: &[u64], in_window: Option<InWindow>) -> String {
    let mut text = number.to_string();
    for figure in figures {
        let _ = write!(text, " {figure}");
    }
    if let Some(InWindow { reading, day, quarter }) = in_window {
        let _ = write!(text, " {reading} {day} {quarter}");
    }
    text + "\n"
}

pub fn decision_text(decision: &Decision) -> String {
    match *decision {
        Decision::Refused(refusal) => refusal_text(refusal),
        Decision::Accepted { charge, general, peak, sum, in_window } => figures_text(0, &[charge, general, peak as u64, sum], Some(in_window)),
        Decision::NoWindow { general, peak, sum } => figures_text(8, &[general, peak as u64, sum], None),
        Decision::ShareNotReached { general, peak, sum, in_window } => figures_text(9, &[general, peak as u64, sum], Some(in_window)),
        Decision::TooLittleMoved { general, peak, sum, in_window } => figures_text(10, &[general, peak as u64, sum], Some(in_window)),
        Decision::TooLittleReduced { general, peak, sum, in_window } => figures_text(11, &[general, peak as u64, sum], Some(in_window)),
    }
}

/// What the statement program prints.
pub fn statement_program(bytes: &[u8]) -> String {
    statement_text(&Editions::today(), bytes)
}

/// The text of a customer file by a list of editions.
pub fn statement_text(editions: &Editions, bytes: &[u8]) -> String {
    match customer_decision(editions, bytes) {
        Ok(decision) => decision_text(&decision),
        Err(refusal) => refusal_text(refusal),
    }
}
