//! Damage to a file's bytes: cuts, bytes too many, flipped bytes, a bad reading before a cut.

use super::{about_sundays, illegal_reading, some_position, Random};
use crate::files::READING_BYTES;
use crate::layout::Sundays;
use crate::QUARTERS;

/// Bytes of a usual day.
const DAY_BYTES: u64 = (QUARTERS * READING_BYTES) as u64;

/// Where a file's fields end, how many days follow, which of them are the two Sundays, and the limit of its readings.
pub struct Layout {
    /// the end of each header field; the last is the end of the header
    pub borders: Vec<usize>,
    pub days: u16,
    pub sundays: Sundays,
    pub limit: u32,
}

impl Layout {
    fn header(&self) -> usize {
        self.borders.last().copied().unwrap_or(0)
    }

    /// Of a day from 1; the day after the last starts at the end.
    fn day_start(&self, day: u16) -> usize {
        self.header() + self.sundays.start(day) * READING_BYTES
    }
}

/// One place earlier, the place, or one later.
fn beside(random: &mut Random, place: usize) -> usize {
    (place + random.below(3) as usize).saturating_sub(1)
}

fn cut_at_day(random: &mut Random, bytes: &mut Vec<u8>, layout: &Layout) {
    let day = match random.below(4) {
        0 => random.between(1, 3) as u16,
        1 => layout.days + random.below(2) as u16,
        2 => about_sundays(random, layout.sundays),
        _ => random.between(1, layout.days as u64 + 1) as u16,
    };
    bytes.truncate(beside(random, layout.day_start(day)));
}

fn lengthen(random: &mut Random, bytes: &mut Vec<u8>) {
    let more = match random.below(3) {
        0 => 1,
        1 => DAY_BYTES,
        _ => random.between(1, 3 * DAY_BYTES),
    };
    let byte = *random.pick(&[0, 10, 255]);
    bytes.extend((0..more).map(|_| byte));
}

fn flip(random: &mut Random, bytes: &mut [u8], to: usize) {
    let at = random.below(to as u64) as usize;
    bytes[at] ^= random.between(1, 255) as u8;
}

/// A bad reading, and the file cut inside its day, at the day's end, or later.
fn bad_then_cut(random: &mut Random, bytes: &mut Vec<u8>, layout: &Layout) {
    let day = match random.below(3) {
        0 => layout.days,
        1 => about_sundays(random, layout.sundays),
        _ => random.between(1, layout.days as u64) as u16,
    };
    let at = layout.day_start(day) + READING_BYTES * some_position(random, layout.sundays.length(day));
    bytes[at..at + READING_BYTES].copy_from_slice(&illegal_reading(random, layout.limit).to_be_bytes());
    let end = layout.day_start(day + 1);
    match random.below(5) {
        0 => bytes.truncate(random.between((at + READING_BYTES) as u64, end as u64 - 1) as usize),
        1 => bytes.truncate(end),
        2 => bytes.truncate(beside(random, end)),
        3 => bytes.truncate(random.between(end as u64, bytes.len() as u64) as usize),
        _ => lengthen(random, bytes),
    }
}

/// Damages the bytes of a whole file, and says how.
pub fn damage(random: &mut Random, bytes: &mut Vec<u8>, layout: &Layout) -> &'static str {
    match random.below(12) {
        0 => {
            bytes.truncate(random.below(bytes.len() as u64) as usize);
            ", cut"
        }
        1 | 2 => {
            bytes.truncate(random.below(layout.header() as u64 + 1) as usize);
            ", cut in the header"
        }
        3 => {
            let border = *random.pick(&layout.borders);
            bytes.truncate(beside(random, border));
            ", cut at a field's border"
        }
        4 | 5 => {
            cut_at_day(random, bytes, layout);
            ", cut at a day's border"
        }
        6 => {
            lengthen(random, bytes);
            ", bytes too many"
        }
        7 | 8 => {
            flip(random, bytes, layout.header());
            ", a header byte flipped"
        }
        9 => {
            let length = bytes.len();
            flip(random, bytes, length);
            ", a byte flipped"
        }
        _ => {
            bad_then_cut(random, bytes, layout);
            ", a bad reading and a cut"
        }
    }
}
