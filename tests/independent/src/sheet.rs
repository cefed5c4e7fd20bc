//! The window sheet (Rules 5.1 to 5.4): 56 bytes, and what they mean.

use crate::editions::Editions;
use crate::{Refusal, QUARTERS};

pub const SHEET_BYTES: usize = 56;
pub const VERSION: u16 = 1;
const SEASON_BYTES: usize = QUARTERS / 8;
const SEASONS_AT: usize = 8;
const TOP_BIT: u128 = 1 << (QUARTERS - 1);

/// The windows of a season: bit 95 of the number is quarter 0.
#[derive(Clone, Copy, Debug, Default, PartialEq, Eq)]
pub struct Quarters(u128);

impl Quarters {
    pub fn from_bytes(bytes: &[u8]) -> Quarters {
        Quarters(bytes.iter().fold(0, |bits, &byte| bits << 8 | byte as u128))
    }

    pub fn to_bytes(self) -> [u8; SEASON_BYTES] {
        let mut bytes = [0; SEASON_BYTES];
        bytes.copy_from_slice(&self.0.to_be_bytes()[16 - SEASON_BYTES..]);
        bytes
    }

    pub fn has(self, quarter: usize) -> bool {
        self.0 & (TOP_BIT >> quarter) != 0
    }

    pub fn set(&mut self, quarter: usize) {
        self.0 |= TOP_BIT >> quarter;
    }

    pub fn count(self) -> u32 {
        self.0.count_ones()
    }

    pub fn is_empty(self) -> bool {
        self.0 == 0
    }

    /// All ones in place of a quarter that is a window, else 0.
    pub fn mask(self) -> [u32; QUARTERS] {
        let mut mask = [0; QUARTERS];
        for (quarter, entry) in mask.iter_mut().enumerate() {
            *entry = if self.has(quarter) { u32::MAX } else { 0 };
        }
        mask
    }
}

/// A sheet's meaning. Season 1 stands at place 0.
#[derive(Clone, Copy, Debug, PartialEq, Eq)]
pub struct Sheet {
    pub year: u16,
    pub level: u8,
    pub seasons: [Quarters; 4],
}

pub fn level_allowed(level: u8) -> bool {
    (1..=7).contains(&level)
}

impl Sheet {
    /// Tests in the order 12 (length, mark, version), 1, 2, 12 (set bits, by the edition of the sheet's year).
    pub fn read(editions: &Editions, bytes: &[u8]) -> Result<Sheet, Refusal> {
        if bytes.len() != SHEET_BYTES || &bytes[..3] != b"HLZ" || u16::from_be_bytes([bytes[3], bytes[4]]) != VERSION {
            return Err(Refusal::Malformed);
        }
        let year = u16::from_be_bytes([bytes[5], bytes[6]]);
        let level = bytes[7];
        let edition = editions.of_year(year)?;
        if !level_allowed(level) {
            return Err(Refusal::Level);
        }
        let season = |at: usize| Quarters::from_bytes(&bytes[SEASONS_AT + SEASON_BYTES * at..][..SEASON_BYTES]);
        let seasons = [season(0), season(1), season(2), season(3)];
        if seasons.iter().any(|quarters| quarters.count() > edition.limit as u32) {
            return Err(Refusal::Malformed);
        }
        Ok(Sheet { year, level, seasons })
    }

    /// Writes the sheet to the first 56 bytes of a buffer that has as many.
    pub fn write(&self, buffer: &mut [u8]) {
        buffer[..3].copy_from_slice(b"HLZ");
        buffer[3..5].copy_from_slice(&VERSION.to_be_bytes());
        buffer[5..7].copy_from_slice(&self.year.to_be_bytes());
        buffer[7] = self.level;
        for (place, quarters) in buffer[SEASONS_AT..SHEET_BYTES].chunks_exact_mut(SEASON_BYTES).zip(self.seasons) {
            place.copy_from_slice(&quarters.to_bytes());
        }
    }
}
