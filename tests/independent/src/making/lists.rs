//! Lists of editions: today's, and made-up ones with other numbers, gaps, and records that are refused.

use super::Random;
use crate::editions::{Edition, Editions, FIRST_YEAR, LAST_YEAR, MOST_EDITIONS, TODAY};

/// The records in the order of their loading, refused ones among them, and what was loaded.
pub struct List {
    pub given: Vec<Edition>,
    pub loaded: Editions,
}

impl List {
    pub fn today() -> List {
        List { given: vec![TODAY], loaded: Editions::today() }
    }

    fn new(given: Vec<Edition>) -> List {
        let mut loaded = Editions::default();
        for &edition in &given {
            // 22 leaves the list as it was
            let _ = loaded.load(edition);
        }
        List { given, loaded }
    }

    /// How many records, then each with its numbers, the high byte first.
    pub fn bytes(&self) -> Vec<u8> {
        let mut bytes = vec![self.given.len() as u8];
        for edition in &self.given {
            bytes.extend(edition.first.to_be_bytes());
            bytes.extend(edition.last.to_be_bytes());
            bytes.extend([edition.line, edition.limit]);
            bytes.extend(edition.shares);
            bytes.extend(edition.least_moved.to_be_bytes());
            bytes.push(edition.floor);
            bytes.extend(edition.least_reduction.to_be_bytes());
            bytes.extend(edition.hours.to_be_bytes());
        }
        bytes
    }

    /// The records that were refused.
    pub fn refused(&self) -> Vec<Edition> {
        self.given.iter().filter(|edition| self.loaded.of_year(edition.first).as_ref() != Ok(edition)).copied().collect()
    }

    /// What a file of the year is made by: its edition, or today's where the year has none.
    pub fn edition(&self, year: u16) -> Edition {
        self.loaded.of_year(year).unwrap_or(TODAY)
    }
}

/// Of these, or anything up to the most.
fn some(random: &mut Random, often: &[u64], least: u64, most: u64) -> u64 {
    match random.below(3) {
        0 => random.between(least, most),
        _ => *random.pick(often),
    }
}

/// An edition of these years with numbers in their ranges.
fn some_edition(random: &mut Random, first: u16, last: u16) -> Edition {
    let mut shares = [0; 7];
    for share in &mut shares {
        *share = some(random, &[0, 1, 5, 10, 20, 25, 30, 50], 0, 100) as u8;
    }
    Edition {
        first,
        last,
        line: some(random, &[0, 1, 50, 90, 94, 95, 96, 99, 100], 0, 100) as u8,
        limit: some(random, &[1, 2, 8, 32, 39, 40, 41, 95, 96], 1, 96) as u8,
        shares,
        least_moved: some(random, &[0, 1, 100_000, 200_000, 50_000], 0, 3_000_000) as u32,
        floor: some(random, &[0, 1, 20, 25, 33, 99, 100], 0, 100) as u8,
        least_reduction: some(random, &[0, 1, 50_000, 100_000, 1_000_000], 0, 1_000_000) as u32,
        hours: some(random, &[0, 1, 2_499, 2_500, 3_000, 8_784], 0, 8_784) as u16,
    }
}

/// One number out of its range, or the years in a wrong order.
fn broken(random: &mut Random, edition: &mut Edition) {
    match random.below(9) {
        0 => edition.line = 101,
        1 => edition.limit = *random.pick(&[0, 97, 97, 255]),
        2 => edition.shares[random.below(7) as usize] = 101,
        3 => edition.floor = 101,
        4 => edition.least_moved = 1_000_000_001,
        5 => edition.least_reduction = 1_000_001,
        6 => edition.hours = 8_785,
        7 => edition.last = LAST_YEAR + 1,
        _ => (edition.first, edition.last) = (edition.last + 1, edition.first),
    }
}

/// Records one behind the other, with gaps or without, in any order; among them some that are refused: out of a range,
/// overlapping by a year, or the ninth.
pub fn some_list(random: &mut Random) -> List {
    let mut given = Vec::new();
    let mut first = FIRST_YEAR;
    let longest = *random.pick(&[1, 3, 8, 20, 47]);
    if random.percent(50) {
        given.push(TODAY);
        first = TODAY.last + 1;
    }
    while first <= LAST_YEAR && given.len() < MOST_EDITIONS + 2 {
        let last = (first + random.below(longest) as u16).min(LAST_YEAR);
        given.push(some_edition(random, first, last));
        first = last + 1 + if random.percent(40) { random.between(1, 4) as u16 } else { 0 };
    }
    if random.percent(60) {
        let at = random.below(given.len() as u64) as usize;
        match random.below(3) {
            0 | 1 => broken(random, &mut given[at]),
            // its last year is also the next one's first
            _ => given[at].last = (given[at].last + 1).min(LAST_YEAR),
        }
    }
    for at in (1..given.len()).rev() {
        if random.percent(50) {
            given.swap(at, random.below(at as u64 + 1) as usize);
        }
    }
    List::new(given)
}
