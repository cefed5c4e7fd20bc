//! Customer files.

use super::damage::{damage, Layout};
use super::exact::{some_prices, some_target};
use super::holidays::{broken_holidays, some_holidays};
use super::series::{calendar_probe, fitted, flat, noise, Year};
use super::{some_year, spoil, List, Made, Random};
use crate::decision::{Prices, CAPACITY_LIMIT, CUSTOMER_LIMIT, ENERGY_LIMIT};
use crate::editions::Edition;
use crate::sheet::{Quarters, Sheet, SHEET_BYTES};
use crate::QUARTERS;

/// The header's fields as they are written.
struct Header {
    mark: [u8; 3],
    version: u16,
    sheet: [u8; SHEET_BYTES],
    option: u8,
    holiday_count: u8,
    holidays: Vec<u16>,
    prices: [u32; 4],
}

fn set_at_random(random: &mut Random, count: u32) -> Quarters {
    let mut quarters = Quarters::default();
    while quarters.count() < count {
        quarters.set(random.below(QUARTERS as u64) as usize);
    }
    quarters
}

fn some_quarters(random: &mut Random, limit: u8) -> Quarters {
    let mut quarters = Quarters::default();
    match random.below(6) {
        0 => {}
        1 => quarters = set_at_random(random, limit as u32),
        2 => (QUARTERS - limit as usize..QUARTERS).for_each(|quarter| quarters.set(quarter)),
        3 => quarters.set(*random.pick(&[0, 7, 8, 31, 32, 63, 64, 72, 94, 95])),
        _ => {
            let count = random.between(1, (limit as u64 - 1).max(1)) as u32;
            quarters = set_at_random(random, count)
        }
    }
    quarters
}

fn some_seasons(random: &mut Random, limit: u8) -> [Quarters; 4] {
    if random.percent(5) {
        return Default::default();
    }
    [(); 4].map(|_| some_quarters(random, limit))
}

impl Header {
    fn new(sheet: &Sheet, option: bool, holidays: &[u16], prices: &Prices) -> Header {
        let mut bytes = [0; SHEET_BYTES];
        sheet.write(&mut bytes);
        let Prices { low, high } = *prices;
        Header {
            mark: *b"CUS",
            version: 1,
            sheet: bytes,
            option: option as u8,
            holiday_count: holidays.len() as u8,
            holidays: holidays.to_vec(),
            prices: [low.capacity, low.energy, high.capacity, high.energy],
        }
    }

    fn spoil(&mut self, random: &mut Random, year: u16, limit: u8) -> &'static str {
        match random.below(12) {
            0 => self.mark = **random.pick(&[b"CUT", b"GRD", b"HLZ", b"cus"]),
            1 => self.version = *random.pick(&[0, 2, 256, 257]),
            2 => self.sheet[random.below(3) as usize] ^= 1,
            3 => self.sheet[random.between(3, 4) as usize] ^= random.between(1, 255) as u8,
            4 => self.sheet[5..7].copy_from_slice(&random.pick(&[2013u16, 2029, 0, u16::MAX]).to_be_bytes()),
            5 => self.sheet[7] = *random.pick(&[0, 8, 255]),
            6 => {
                let season = 8 + 12 * random.below(4) as usize;
                let above = limit as u32 + 1;
                let count = (*random.pick(&[above, above, above + 1, 41, 96])).min(QUARTERS as u32);
                self.sheet[season..season + 12].copy_from_slice(&set_at_random(random, count).to_bytes());
            }
            7 => self.option = *random.pick(&[2, 3, 128, 255]),
            8 | 9 => {
                self.holidays = broken_holidays(random, year);
                self.holiday_count = self.holidays.len() as u8;
            }
            _ => {
                let at = random.below(4) as usize;
                let limit = if at % 2 == 0 { CAPACITY_LIMIT } else { ENERGY_LIMIT };
                self.prices[at] = *random.pick(&[limit + 1, limit + 1, u32::MAX, 1 << 31]);
            }
        }
        ", a bad field"
    }

    /// The header's bytes and the ends of its fields.
    fn bytes(&self) -> (Vec<u8>, Vec<usize>) {
        let mut bytes = self.mark.to_vec();
        let mut borders = vec![3, 5, 8, 10, 12, 13, 25, 37, 49, 61, 62, 63];
        bytes.extend(self.version.to_be_bytes());
        bytes.extend(self.sheet);
        bytes.extend([self.option, self.holiday_count]);
        for holiday in &self.holidays {
            bytes.extend(holiday.to_be_bytes());
            borders.push(bytes.len());
        }
        for price in self.prices {
            bytes.extend(price.to_be_bytes());
            borders.push(bytes.len());
        }
        (bytes, borders)
    }
}

fn some_series(random: &mut Random, edition: &Edition, level: u8, year: &Year, holidays: &[u16], prices: &mut Prices) -> (&'static str, Vec<u32>) {
    match random.below(20) {
        0..=9 => {
            let (name, target) = some_target(random, edition, level, prices);
            (name, fitted(random, year, &target))
        }
        10..=16 => ("calendar probe", calendar_probe(random, year, holidays)),
        17 => ("flat", flat(random, year)),
        _ => ("noise", noise(random, year)),
    }
}

pub fn customer_file(random: &mut Random, list: &List) -> Made {
    let charge_year = some_year(random, list);
    let edition = list.edition(charge_year);
    let sheet = Sheet { year: charge_year, level: random.between(1, 7) as u8, seasons: some_seasons(random, edition.limit) };
    let holidays = some_holidays(random, sheet.year);
    let mut prices = some_prices(random);
    let year = Year::new(sheet.year, &sheet.seasons, &holidays);
    let (name, mut series) = some_series(random, &edition, sheet.level, &year, &holidays, &mut prices);
    let mut recipe = format!("customer file, {name}");
    let mut header = Header::new(&sheet, random.percent(50), &holidays, &prices);
    if random.percent(15) {
        recipe += header.spoil(random, sheet.year, edition.limit);
    }
    if random.percent(6) {
        spoil(random, year.sundays, &mut series, CUSTOMER_LIMIT);
        recipe += ", bad readings";
    }
    let (mut bytes, borders) = header.bytes();
    let layout = Layout { borders, days: year.days, sundays: year.sundays, limit: CUSTOMER_LIMIT };
    bytes.extend(series.iter().flat_map(|reading| reading.to_be_bytes()));
    if random.percent(35) {
        recipe += damage(random, &mut bytes, &layout);
    }
    Made { recipe, bytes }
}
