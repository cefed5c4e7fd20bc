//! The examples of Rules 10.6 and 10.7, and the cases of Rule 11.1.

use independent::calendar::{carrying_days, day_of, weekday};
use independent::decision::{judge, CustomerDays, Decision, Figures, InWindow, Prices, Row};
use independent::editions::TODAY;
use independent::files::{decision_text, statement_program, window_program};
use independent::layout::Sundays;
use independent::making::PRICES;
use independent::windows::{above_line, kept_quarters, windows, GridDays};
use independent::{Refusal, QUARTERS};

fn figures(peak: u32, reading: u32, sum: u64) -> Figures {
    Figures { peak, sum, in_window: Some(InWindow { reading, day: 1, quarter: 0 }) }
}

/// Number, charge where there is one, general charge.
fn judged(level: u8, prices: &Prices, option: bool, figures: &Figures) -> (u8, u64, u64) {
    match judge(level, prices, option, figures) {
        Decision::Accepted { charge, general, .. } => (0, charge, general),
        Decision::Refused(refusal) => (refusal.number(), 0, 0),
        Decision::NoWindow { general, .. } => (8, 0, general),
        Decision::ShareNotReached { general, .. } => (9, 0, general),
        Decision::TooLittleMoved { general, .. } => (10, 0, general),
        Decision::TooLittleReduced { general, .. } => (11, 0, general),
    }
}

fn bytes_of(readings: &[u32]) -> Vec<u8> {
    readings.iter().flat_map(|reading| reading.to_be_bytes()).collect()
}

/// The grid file of the example: 15 January 2024 is day 122 + 15 of the period, from 1, and 29 October 2023 before it
/// has four readings more than other days.
fn example_grid() -> Vec<u8> {
    let mut readings = vec![1_000; 366 * QUARTERS];
    readings[(122 + 14) * QUARTERS + 4 + 72] = 2_000;
    let mut file = b"GRD\x00\x01\x07\xe9\x05".to_vec();
    file.extend(bytes_of(&readings));
    file
}

fn example_sheet() -> Vec<u8> {
    let mut sheet = vec![0x48, 0x4c, 0x5a, 0, 1, 7, 0xe9, 5];
    sheet.extend([0; 9]);
    sheet.push(0x80);
    sheet.extend([0; 38]);
    sheet
}

fn example_customer(readings: &[u32]) -> Vec<u8> {
    let mut file = b"CUS\x00\x01".to_vec();
    file.extend(example_sheet());
    file.extend([0, 0]);
    for price in [2_000u32, 4_000, 10_000, 800] {
        file.extend(price.to_be_bytes());
    }
    file.extend(bytes_of(readings));
    file
}

fn example_year() -> Vec<u32> {
    let mut readings = vec![0; 365 * QUARTERS];
    readings[3 * QUARTERS] = 1_000_000;
    readings[QUARTERS + 72] = 500_000;
    readings
}

#[test]
fn printed_windows() {
    assert_eq!(window_program(&example_grid()), "HLZ 2025 5\n1 18:00-18:15\n2 none\n3 none\n4 none\n");
}

#[test]
fn printed_statement() {
    assert_eq!(statement_program(&example_customer(&example_year())), "0 1001500 2001500 1000000 1500000 500000 2 72\n");
}

#[test]
fn cases_1_to_4() {
    let sum = 12_000_000_000;
    assert_eq!(judged(5, &PRICES, false, &figures(1_000_000, 800_000, sum)), (0, 10_400_000, 12_400_000));
    assert_eq!(judged(5, &PRICES, false, &figures(1_000_000, 800_001, sum)).0, 9);
    assert_eq!(judged(5, &PRICES, false, &figures(1_000_000, 0, sum)), (0, 2_480_000, 12_400_000));
    assert_eq!(judged(5, &PRICES, false, &figures(1_000_000, 0, 10_000_000_000)).2, 12_000_000);
    assert_eq!(judged(5, &PRICES, false, &figures(1_000_000, 0, 9_999_999_999)).2, 2_000_000 + 10_000_000);
    let dear_low = Prices { low: Row { capacity: 3_000, energy: 4_000 }, ..PRICES };
    assert_eq!(judged(5, &dear_low, false, &figures(1_000_000, 0, 9_999_999_999)).2, 13_000_000);
}

#[test]
fn cases_5_to_8() {
    let sum = 4_000_000_000;
    assert_eq!(judged(5, &PRICES, false, &figures(1_000_000, 100_000, sum)), (0, 4_200_000, 6_000_000));
    assert_eq!(judged(5, &PRICES, true, &figures(1_000_000, 100_000, sum)), (0, 1_800_000, 6_000_000));
    assert_eq!(judged(5, &PRICES, true, &figures(1_000_000, 800_000, sum)), (11, 0, 6_000_000));
    let high = |capacity| Prices { high: Row { capacity, energy: 800 }, ..PRICES };
    let sum = 3_600_000_000;
    assert_eq!(judged(1, &high(500), false, &figures(300_000, 200_000, sum)), (0, 820_000, 870_000));
    assert_eq!(judged(1, &high(499), false, &figures(300_000, 200_000, sum)).0, 11);
    assert_eq!(judged(1, &high(500), false, &figures(300_000, 200_001, sum)).0, 10);
}

#[test]
fn cases_9_and_10() {
    assert!(!above_line(&TODAY, 1_900, 2_000) && above_line(&TODAY, 1_901, 2_000));
    let kept = kept_quarters(&[7; QUARTERS], 7);
    assert!((0..QUARTERS).all(|quarter| kept.has(quarter) == (quarter < 40)));
}

#[test]
fn case_11() {
    assert_eq!(weekday(2024, day_of(2024, 3, 2)), 5);
    let labour_day = day_of(2025, 5, 1);
    assert_eq!(weekday(2025, labour_day), 3);
    assert!(carrying_days(2025, &[])[labour_day as usize]);
    assert!(!carrying_days(2025, &[labour_day])[labour_day as usize]);
}

#[test]
fn case_12() {
    let readings: Vec<u32> = example_grid()[8..].chunks(4).map(|f| u32::from_be_bytes([f[0], f[1], f[2], f[3]])).collect();
    let mut buffer = [9; 60];
    assert!(windows(2025, 5, &readings, &mut buffer).is_ok());
    assert_eq!(buffer[..56], example_sheet());
    assert_eq!(buffer[56..], [9; 4]);
    assert_eq!(windows(2025, 5, &readings, &mut [0; 55]), Err(Refusal::ShortBuffer));
}

#[test]
fn case_13() {
    let (opened, mut state) = CustomerDays::open(&example_sheet(), false, &[], &PRICES);
    assert!(opened.is_ok());
    let sundays = Sundays::of_year(2025);
    for day in 1..=365 {
        assert_eq!(state.day(&vec![0; sundays.length(day)]), Ok(()));
    }
    assert_eq!(decision_text(&state.close()), "10 0 0 0 0 2 72\n");
    for year in [2013, 2029] {
        assert_eq!(windows(year, 5, &[], &mut [0; 56]), Err(Refusal::Year));
        let (opened, mut state) = GridDays::open(year, 5);
        assert_eq!(opened, Err(Refusal::Year));
        assert_eq!(state.day(&[]), Err(Refusal::Sequence));
        assert_eq!(state.close(&mut [0; 56]), Err(Refusal::Sequence));
        assert_eq!(state.close(&mut [0; 55]), Err(Refusal::ShortBuffer));
    }
}

#[test]
fn case_14() {
    // Tuesday 6 and Thursday 8 May 2025 listed
    let tuesday = day_of(2025, 5, 6);
    assert_eq!(weekday(2025, tuesday), 1);
    let carries = carrying_days(2025, &[tuesday, tuesday + 2]);
    assert!(!carries[tuesday as usize - 2], "Monday is free");
    assert!(carries[tuesday as usize + 2], "Friday carries windows");
}

#[test]
fn refusals_of_files() {
    assert_eq!(window_program(b""), "REFUSED 12\n");
    assert_eq!(window_program(b"GRD\x00\x01\x07\xe9"), "REFUSED 12\n");
    assert_eq!(window_program(b"GRD\x00\x01\x07\xdd"), "REFUSED 1\n");
    assert_eq!(window_program(b"GRD\x00\x01\x07\xe9\x08"), "REFUSED 2\n");
    assert_eq!(window_program(b"GRD\x00\x01\x07\xe9\x07"), "REFUSED 4\n");
    let mut file = example_grid();
    file.push(0);
    assert_eq!(window_program(&file), "REFUSED 4\n");
    let mut file = example_customer(&example_year());
    let readings_at = file.len() - 365 * 384;
    file[readings_at + 384 + 4] = 0xff;
    assert_eq!(statement_program(&file), "5 2 1\n");
    assert_eq!(statement_program(&file[..readings_at + 768]), "5 2 1\n");
    assert_eq!(statement_program(&file[..readings_at + 767]), "4\n");
    assert_eq!(statement_program(&file[..readings_at]), "4\n");
    assert_eq!(statement_program(&file[..readings_at - 1]), "12\n");
}
