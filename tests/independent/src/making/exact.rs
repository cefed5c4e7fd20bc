//! Figures and prices on each side of every rule of the decision.

use super::series::Target;
use super::{near, Random};
use crate::decision::{Prices, Row, CAPACITY_LIMIT, CUSTOMER_LIMIT, ENERGY_LIMIT};
use crate::editions::Edition;

/// The prices of Rule 11.1.
pub const PRICES: Prices = Prices { low: Row { capacity: 2_000, energy: 4_000 }, high: Row { capacity: 10_000, energy: 800 } };

fn some_price(random: &mut Random, limit: u32) -> u32 {
    match random.below(5) {
        0 => *random.pick(&[0, 1, limit - 1, limit]),
        1 => random.below(limit as u64 + 1) as u32,
        _ => random.below(limit as u64 / 10) as u32,
    }
}

fn some_row(random: &mut Random) -> Row {
    Row { capacity: some_price(random, CAPACITY_LIMIT), energy: some_price(random, ENERGY_LIMIT) }
}

pub fn some_prices(random: &mut Random) -> Prices {
    match random.below(4) {
        0 => PRICES,
        _ => Prices { low: some_row(random), high: some_row(random) },
    }
}

fn some_peak(random: &mut Random) -> u64 {
    match random.below(5) {
        0 => CUSTOMER_LIMIT as u64,
        1 => 100 * random.between(1, 100_000),
        2 => random.between(100_000, 2_000_000),
        _ => random.between(1_000, 100_000_000),
    }
}

/// Above or below the edition's hours, or just there.
fn some_sum(random: &mut Random, edition: &Edition, peak: u64) -> u64 {
    let quarters = 4 * edition.hours as u64;
    match random.below(4) {
        0 => near(random, quarters * peak),
        1 => random.below(quarters * peak),
        2 => random.between(quarters * peak, (quarters + 15_000) * peak),
        _ => random.below(3 * peak),
    }
}

fn target(peak: u64, in_window: u64, sum: u64) -> Target {
    Target { peak: peak as u32, in_window: in_window.min(peak) as u32, sum }
}

fn at_the_share(random: &mut Random, edition: &Edition, level: u8) -> Target {
    let peak = if random.percent(70) { 100 * random.between(4_000, 100_000) } else { some_peak(random) };
    let moved = (edition.share(level) * peak).div_ceil(100);
    let sum = some_sum(random, edition, peak);
    target(peak, near(random, peak - moved), sum)
}

/// The share of the peak is no more than the least move.
fn at_the_moved_power(random: &mut Random, edition: &Edition, level: u8) -> Target {
    let least = (edition.least_moved as u64).max(1);
    let most = (least * 100 / edition.share(level).max(1)).min(CUSTOMER_LIMIT as u64);
    let peak = random.between(least, most);
    let sum = some_sum(random, edition, peak);
    target(peak, near(random, peak - edition.least_moved.min(peak as u32) as u64), sum)
}

/// The high row's capacity price times the moved power is the least reduction.
fn at_the_reduction(random: &mut Random, edition: &Edition, prices: &mut Prices) -> Target {
    let price = *random.pick(&[500, 400, 250, 100, 200, 50]);
    let moved = near(random, 1_000 * edition.least_reduction as u64 / price).max(1);
    let peak = moved + random.below(moved);
    prices.high.capacity = near(random, price) as u32;
    if random.percent(50) {
        prices.low.capacity = prices.high.capacity;
    }
    target(peak, peak - moved, some_sum(random, edition, peak))
}

/// No in-window reading and no energy price: the floor is charged, and what it leaves of the general charge is the
/// least reduction. By today's edition that is at 625 euro: four fifths of them are 500.
fn at_the_floor(random: &mut Random, edition: &Edition, prices: &mut Prices) -> Target {
    let general = 100 * edition.least_reduction as u64 / (100 - edition.floor as u64).max(1);
    let price = *random.pick(&[100, 500, 250, 10, 125]);
    let peak = (1_000 * general.max(100) / price).min(CUSTOMER_LIMIT as u64 - 50);
    let row = Row { capacity: price as u32, energy: *random.pick(&[0, 0, 1, 2]) };
    *prices = Prices { low: row, high: row };
    let peak = if random.percent(50) { peak + random.below(50) } else { near(random, peak) };
    let sum = some_sum(random, edition, peak);
    target(peak, random.below(2) * random.below(1_000), sum)
}

/// The remainder of the division by 4,000,000 is half of it, one less or one more, for g or for r.
fn at_half_a_cent(random: &mut Random, edition: &Edition, prices: &mut Prices) -> Target {
    let row = Row { capacity: random.below(5_000) as u32, energy: 1 };
    *prices = Prices { low: row, high: row };
    let peak = random.between(300_000, 3_000_000);
    let in_window = random.below(peak / 2);
    let figure = if random.percent(50) { peak } else { in_window };
    let capacity_part = 4_000 * figure * row.capacity as u64 % 4_000_000;
    let wanted = near(random, 6_000_000 - capacity_part) % 4_000_000;
    let sum = some_sum(random, edition, peak).max(2 * peak) / 4_000_000 * 4_000_000 + 4_000_000 + wanted;
    target(peak, in_window, sum)
}

fn anything(random: &mut Random, edition: &Edition) -> Target {
    let peak = some_peak(random);
    let in_window = random.below(peak + 1);
    target(peak, in_window, some_sum(random, edition, peak))
}

/// Figures at an edge; prices may be set with them.
pub fn some_target(random: &mut Random, edition: &Edition, level: u8, prices: &mut Prices) -> (&'static str, Target) {
    match random.below(7) {
        0 => ("at the share", at_the_share(random, edition, level)),
        1 => ("at the moved power", at_the_moved_power(random, edition, level)),
        2 => ("at the reduction", at_the_reduction(random, edition, prices)),
        3 => ("at the floor", at_the_floor(random, edition, prices)),
        4 => ("at half a cent", at_half_a_cent(random, edition, prices)),
        _ => ("any figures", anything(random, edition)),
    }
}
