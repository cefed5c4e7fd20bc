//! The two Sundays of the clock change (Rule 2.4). Their days, and the places of readings, were counted by hand.

use independent::calendar::{day_of, last_sunday, weekday};
use independent::decision::{decide, CustomerDays, Decision};
use independent::files::decision_text;
use independent::layout::{quarters, Sundays};
use independent::making::PRICES;
use independent::sheet::{Quarters, Sheet};
use independent::windows::{windows, GridDays};
use independent::{Refusal, QUARTERS};

/// Charge year, its period's days with 100 and with 92 readings, its own days with 92 and with 100.
const COUNTED: [(u16, u16, u16, u16, u16); 3] = [(2014, 58, 212, 89, 299), (2025, 59, 213, 89, 299), (2026, 57, 211, 88, 298)];

#[test]
fn sundays() {
    // 1 January 2012 was a Sunday, 1 January 2013 a Tuesday
    assert_eq!((weekday(2012, 1), weekday(2013, 1)), (6, 1));
    for (year, long, short, own_short, own_long) in COUNTED {
        assert_eq!(Sundays::of_period(year), Sundays { short, long });
        assert_eq!(Sundays::of_year(year), Sundays { short: own_short, long: own_long });
    }
    for year in 2012..=2060 {
        for month in [3, 10] {
            let (sunday, end) = (last_sunday(year, month), day_of(year, month, 31));
            assert_eq!(weekday(year, sunday), 6);
            assert!(sunday <= end && end < sunday + 7);
        }
    }
}

#[test]
fn lengths_and_quarters() {
    for (year, long, short, ..) in COUNTED {
        let sundays = Sundays::of_period(year);
        assert_eq!((sundays.length(long), sundays.length(short), sundays.length(long - 7), sundays.length(short - 7)), (100, 92, 96, 96));
        for day in 1..=365 {
            assert_eq!(sundays.start(day + 1) - sundays.start(day), sundays.length(day));
        }
        assert_eq!(sundays.start(366), 365 * QUARTERS);
    }
    let listed = |length| quarters(length).into_iter().flatten().collect::<Vec<_>>();
    let long: Vec<usize> = (0..12).chain([8, 9, 10, 11]).chain(12..96).collect();
    let short: Vec<usize> = (0..8).chain(12..96).collect();
    assert_eq!((listed(100), listed(92), listed(96)), (long, short, (0..96).collect()));
}

/// The season, from 0, and the quarter that are the one window of a period of 2025 with one high reading.
fn window_of(place: usize) -> (usize, usize) {
    let mut readings = vec![1_000; 366 * QUARTERS];
    readings[place] = 2_000;
    let sheet = windows(2025, 5, &readings, &mut [0; 56]).expect("the series is legal");
    let season = sheet.seasons.iter().position(|quarters| !quarters.is_empty()).expect("there is a window");
    assert_eq!(sheet.seasons.iter().map(|quarters| quarters.count()).sum::<u32>(), 1);
    (season, (0..QUARTERS).find(|&quarter| sheet.seasons[season].has(quarter)).expect("a quarter is set"))
}

#[test]
fn grid_windows() {
    let (long, short) = (58 * 96, 212 * 96 + 4);
    for (position, quarter) in [(0, 0), (8, 8), (11, 11), (12, 8), (15, 11), (16, 12), (99, 95)] {
        assert_eq!(window_of(long + position), (3, quarter));
    }
    for (position, quarter) in [(0, 0), (7, 7), (8, 12), (91, 95)] {
        assert_eq!(window_of(short + position), (1, quarter));
    }
    assert_eq!((window_of(long + 100), window_of(short + 92)), ((3, 0), (1, 0)));
    // a reading of 15 January 2024, 18:00, and where it would stand if all days had 96
    assert_eq!((window_of(13_132), window_of(13_128)), ((0, 72), (0, 68)));
}

#[test]
fn grid_refusals() {
    let mut readings = vec![1_000; 366 * QUARTERS];
    readings[58 * 96 + 99] = u32::MAX;
    assert_eq!(windows(2025, 5, &readings, &mut [0; 56]).err(), Some(Refusal::Reading { day: 59, position: 99 }));
}

#[test]
fn grid_days() {
    let (_, mut state) = GridDays::open(2025, 5);
    for _ in 1..59 {
        assert_eq!(state.day(&[1_000; 96]), Ok(()));
    }
    let mut bad = [1_000; 100];
    bad[99] = u32::MAX;
    assert_eq!(state.day(&[1_000; 96]), Err(Refusal::Length));
    assert_eq!(state.day(&bad), Err(Refusal::Reading { day: 59, position: 99 }));
    assert_eq!(state.day(&[1_000; 100]), Ok(()));
    for _ in 60..213 {
        assert_eq!(state.day(&[1_000; 96]), Ok(()));
    }
    assert_eq!(state.day(&[1_000; 96]), Err(Refusal::Length));
    assert_eq!(state.day(&[1_000; 92]), Ok(()));
}

/// A sheet with quarters 8 to 11 in each season.
fn night_sheet() -> [u8; 56] {
    let mut night = Quarters::default();
    (8..12).for_each(|quarter| night.set(quarter));
    let mut sheet = [0; 56];
    Sheet { year: 2025, level: 5, seasons: [night; 4] }.write(&mut sheet);
    sheet
}

#[test]
fn customer_year() {
    let mut readings = vec![100_000; 365 * QUARTERS];
    let long = 298 * 96 - 4;
    (readings[long + 9], readings[long + 13]) = (800_000, 900_000);
    // the Monday after, quarter 10: 299 whole days are before it, since both Sundays are
    readings[299 * 96 + 10] = 300_000;
    let sum = 100_000 * (365 * 96 - 3) + 2_000_000u64;
    let text = decision_text(&decide(&night_sheet(), false, &[], &PRICES, &readings));
    assert_eq!(text, format!("0 {} {} 900000 {sum} 300000 300 10\n", 600_000 + sum / 1_000, 1_800_000 + sum / 1_000));
    readings[long + 99] = u32::MAX;
    assert_eq!(decide(&night_sheet(), false, &[], &PRICES, &readings), Decision::Refused(Refusal::Reading { day: 299, position: 99 }));
}

#[test]
fn customer_days() {
    let (_, mut state) = CustomerDays::open(&night_sheet(), false, &[], &PRICES);
    for (sunday, length) in [(89, 92), (299, 100)] {
        for _ in if sunday == 89 { 1..89 } else { 90..299 } {
            assert_eq!(state.day(&[1_000; 96]), Ok(()));
        }
        assert_eq!(state.day(&[1_000; 96]), Err(Refusal::Length));
        assert_eq!(state.day(&vec![u32::MAX; length]), Err(Refusal::Reading { day: sunday, position: 0 }));
        assert_eq!(state.day(&vec![1_000; length]), Ok(()));
    }
}
