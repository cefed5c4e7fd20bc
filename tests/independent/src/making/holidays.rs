//! Holiday lists: common ones, ones that bait bridge days, the year's ends; and broken ones.

use super::Random;
use crate::calendar::{day_of, weekday, year_days, MOST_HOLIDAYS};
use std::collections::BTreeSet;

/// Holidays with a fixed date in most lists.
const FIXED: [(usize, u16); 7] = [(1, 1), (1, 6), (5, 1), (10, 3), (11, 1), (12, 25), (12, 26)];

/// Days of a week from its Monday that are listed together.
const BAITS: [&[i32]; 8] = [&[1], &[3], &[1, 3], &[1, 3], &[0, 1, 3], &[0, 1, 3], &[1, 3, 4], &[0, 3]];

/// Tuesdays and Thursdays of some weeks, sometimes with the Monday or the Friday itself.
fn baits(random: &mut Random, year: u16, list: &mut BTreeSet<u16>) {
    for _ in 0..random.between(1, 10) {
        let day = random.between(1, year_days(year) as u64) as u16;
        let monday = day as i32 - weekday(year, day) as i32;
        let offsets = *random.pick(&BAITS);
        for offset in offsets {
            let listed = monday + offset;
            if (1..=year_days(year) as i32).contains(&listed) {
                list.insert(listed as u16);
            }
        }
    }
}

fn year_ends(random: &mut Random, year: u16, list: &mut BTreeSet<u16>) {
    for _ in 0..random.between(1, 8) {
        let distance = random.below(14) as u16;
        list.insert(if random.percent(50) { 1 + distance } else { year_days(year) - distance });
    }
}

fn anywhere(random: &mut Random, year: u16, list: &mut BTreeSet<u16>) {
    let most = *random.pick(&[1, 5, 12, 40, 80]);
    for _ in 0..random.between(1, most) {
        list.insert(random.between(1, year_days(year) as u64) as u16);
    }
}

/// A list that is allowed.
pub fn some_holidays(random: &mut Random, year: u16) -> Vec<u16> {
    let mut list = BTreeSet::new();
    match random.below(6) {
        0 => {}
        1 => list.extend(FIXED.map(|(month, day)| day_of(year, month, day))),
        2 | 3 => baits(random, year, &mut list),
        4 => year_ends(random, year, &mut list),
        _ => anywhere(random, year, &mut list),
    }
    list.into_iter().take(MOST_HOLIDAYS).collect()
}

/// A list that breaks Rule 2.6.
pub fn broken_holidays(random: &mut Random, year: u16) -> Vec<u16> {
    let mut list = some_holidays(random, year);
    if list.len() < 2 {
        list = vec![10, 20, 30];
    }
    let at = random.below(list.len() as u64) as usize;
    match random.below(7) {
        0 => list[0] = 0,
        1 => *list.last_mut().unwrap_or(&mut 0) = year_days(year) + 1,
        2 => list[at] = *random.pick(&[0, year_days(year) + 1, 367, 368, u16::MAX]),
        3 | 4 => list.insert(at, list[at]),
        5 => list.swap(0, at),
        _ => list = (1..=random.between(41, 255) as u16).collect(),
    }
    list
}
