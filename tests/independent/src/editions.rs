//! The ruling's numbers by edition, and the list of editions that a year picks from (Rules 2.1 and 2.7).

use crate::Refusal;

/// Editions hold for years from here to there.
pub const FIRST_YEAR: u16 = 2014;
pub const LAST_YEAR: u16 = 2060;
pub const MOST_EDITIONS: usize = 8;

#[derive(Clone, Copy, Debug, PartialEq, Eq)]
pub struct Edition {
    pub first: u16,
    pub last: u16,
    /// per cent of the grid's peak: a window's value is above it
    pub line: u8,
    /// windows of a season at most
    pub limit: u8,
    /// per cent of the annual peak, by level from 1
    pub shares: [u8; 7],
    /// W
    pub least_moved: u32,
    /// per cent of the general charge
    pub floor: u8,
    /// cent
    pub least_reduction: u32,
    /// hours of use from which on the high row holds
    pub hours: u16,
}

pub const TODAY: Edition = Edition {
    first: 2014,
    last: 2028,
    line: 95,
    limit: 40,
    shares: [5, 10, 10, 20, 20, 30, 30],
    least_moved: 100_000,
    floor: 20,
    least_reduction: 50_000,
    hours: 2_500,
};

impl Edition {
    pub fn holds(&self, year: u16) -> bool {
        (self.first..=self.last).contains(&year)
    }

    /// Per cent, of a level from 1.
    pub fn share(&self, level: u8) -> u64 {
        self.shares[level as usize - 1] as u64
    }

    fn allowed(&self) -> bool {
        let years = FIRST_YEAR <= self.first && self.first <= self.last && self.last <= LAST_YEAR;
        let shares = self.line <= 100 && self.floor <= 100 && self.shares.iter().all(|&share| share <= 100);
        let limit = (1..=96).contains(&self.limit);
        years && shares && limit && self.least_moved <= 1_000_000_000 && self.least_reduction <= 1_000_000 && self.hours <= 8_784
    }

    fn overlaps(&self, other: &Edition) -> bool {
        self.first <= other.last && other.first <= self.last
    }
}

/// The loaded editions, in the order of their loading.
#[derive(Clone, Debug, Default, PartialEq, Eq)]
pub struct Editions {
    loaded: Vec<Edition>,
}

impl Editions {
    /// Today's edition and no other.
    pub fn today() -> Editions {
        Editions { loaded: vec![TODAY] }
    }

    /// 22 leaves the list as it was.
    pub fn load(&mut self, edition: Edition) -> Result<(), Refusal> {
        if self.loaded.len() >= MOST_EDITIONS || !edition.allowed() || self.loaded.iter().any(|other| edition.overlaps(other)) {
            return Err(Refusal::Edition);
        }
        self.loaded.push(edition);
        Ok(())
    }

    pub fn of_year(&self, year: u16) -> Result<Edition, Refusal> {
        self.loaded.iter().find(|edition| edition.holds(year)).copied().ok_or(Refusal::Year)
    }
}
