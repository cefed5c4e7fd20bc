//! Loading editions, and the rules by another edition than today's (Rules 2.1 and 2.7). What they come to was
//! calculated by hand.

use independent::calendar::weekday;
use independent::decision::{judge_by, Decision, Figures, InWindow};
use independent::editions::{Edition, Editions, TODAY};
use independent::files::{statement_text, windows_text};
use independent::making::PRICES;
use independent::sheet::{Quarters, Sheet};
use independent::windows::{above_line, kept_by, windows_under, GridDays};
use independent::{Refusal, QUARTERS};

const SECOND: Edition = Edition {
    first: 2031,
    last: 2040,
    line: 90,
    limit: 32,
    shares: [5, 10, 10, 20, 25, 30, 30],
    least_moved: 200_000,
    floor: 25,
    least_reduction: 100_000,
    hours: 3_000,
};

fn both() -> Editions {
    let mut editions = Editions::today();
    assert_eq!(editions.load(SECOND), Ok(()));
    editions
}

fn years(first: u16, last: u16) -> Edition {
    Edition { first, last, ..TODAY }
}

/// A season with so many windows, the others without.
fn sheet_of(year: u16, count: usize) -> [u8; 56] {
    let mut seasons = [Quarters::default(); 4];
    (0..count).for_each(|quarter| seasons[2].set(quarter));
    let mut bytes = [0; 56];
    Sheet { year, level: 5, seasons }.write(&mut bytes);
    bytes
}

#[test]
fn years_without_an_edition() {
    for year in [2013, 2029, 2030, 2041, 2060] {
        assert_eq!(both().of_year(year), Err(Refusal::Year));
        assert_eq!(Sheet::read(&both(), &sheet_of(year, 1)), Err(Refusal::Year));
        assert_eq!(windows_under(&both(), year, 5, &[], &mut [0; 56]), Err(Refusal::Year));
        assert_eq!(GridDays::open_under(&both(), year, 5).0, Err(Refusal::Year));
        let [high, low] = year.to_be_bytes();
        assert_eq!(windows_text(&both(), &[b'G', b'R', b'D', 0, 1, high, low]), "REFUSED 1\n");
        assert_eq!(statement_text(&both(), &[b"CUS\x00\x01", &sheet_of(year, 1)[..]].concat()), "1\n");
    }
    for year in [2014, 2028] {
        assert_eq!(both().of_year(year), Ok(TODAY));
    }
    for year in [2031, 2040] {
        assert_eq!(both().of_year(year), Ok(SECOND));
    }
    assert_eq!(Editions::default().of_year(2025), Err(Refusal::Year));
}

#[test]
fn loading() {
    let refused = [
        years(2013, 2013),
        years(2029, 2061),
        years(2030, 2029),
        years(2028, 2030),
        years(2030, 2031),
        years(2040, 2041),
        years(2033, 2035),
        years(2029, 2050),
        Edition { line: 101, ..years(2050, 2050) },
        Edition { limit: 0, ..years(2050, 2050) },
        Edition { limit: 97, ..years(2050, 2050) },
        Edition { shares: [0, 0, 0, 0, 0, 0, 101], ..years(2050, 2050) },
        Edition { least_moved: 1_000_000_001, ..years(2050, 2050) },
        Edition { floor: 101, ..years(2050, 2050) },
        Edition { least_reduction: 1_000_001, ..years(2050, 2050) },
        Edition { hours: 8_785, ..years(2050, 2050) },
    ];
    for edition in refused {
        let mut editions = both();
        assert_eq!(editions.load(edition), Err(Refusal::Edition), "{edition:?}");
        assert_eq!(editions, both());
    }
    assert_eq!(Refusal::Edition.number(), 22);
    let mut editions = both();
    for year in [2041, 2029, 2030, 2060, 2050, 2045] {
        assert_eq!(editions.load(years(year, year)), Ok(()));
    }
    assert_eq!(editions.load(years(2055, 2055)), Err(Refusal::Edition));
    assert_eq!(editions.of_year(2055), Err(Refusal::Year));
}

#[test]
fn limit_of_the_sheets_year() {
    for (year, count, taken) in [(2031, 33, false), (2031, 32, true), (2025, 33, true), (2025, 40, true), (2025, 41, false)] {
        assert_eq!(Sheet::read(&both(), &sheet_of(year, count)).is_ok(), taken);
        // a season's field is tested before the next is read
        let bytes = [b"CUS\x00\x01", &sheet_of(year, count)[..8 + 36]].concat();
        assert_eq!(statement_text(&both(), &bytes), "12\n");
        let file = [b"CUS\x00\x01", &sheet_of(year, count)[..], &[0, 41]].concat();
        assert_eq!(statement_text(&both(), &file), if taken { "3\n" } else { "12\n" });
    }
}

#[test]
fn figures() {
    let judged = |edition: &Edition, reading| {
        let figures = Figures { peak: 1_000_000, sum: 11_000_000_000, in_window: Some(InWindow { reading, day: 1, quarter: 0 }) };
        match judge_by(edition, 5, &PRICES, false, &figures) {
            Decision::Accepted { charge, general, .. } => (0, charge, general),
            Decision::ShareNotReached { general, .. } => (9, 0, general),
            Decision::TooLittleMoved { general, .. } => (10, 0, general),
            Decision::TooLittleReduced { general, .. } => (11, 0, general),
            other => panic!("{other:?}"),
        }
    };
    assert_eq!(judged(&SECOND, 750_000), (0, 12_500_000, 13_000_000));
    assert_eq!(judged(&SECOND, 750_001), (9, 0, 13_000_000));
    assert_eq!(judged(&TODAY, 750_000), (0, 9_700_000, 12_200_000));
    // hours 0: the high row; a floor of 100 per cent
    assert_eq!(judged(&Edition { hours: 0, ..SECOND }, 0), (0, 3_050_000, 12_200_000));
    assert_eq!(judged(&Edition { floor: 100, ..SECOND }, 0), (11, 0, 13_000_000));
    assert_eq!(judged(&Edition { floor: 100, least_reduction: 0, ..SECOND }, 0), (0, 13_000_000, 13_000_000));
    let anything = Edition { shares: [0; 7], least_moved: 0, least_reduction: 0, ..SECOND };
    assert_eq!(judged(&anything, 1_000_000), (0, 13_000_000, 13_000_000));
    assert_eq!(judged(&Edition { least_moved: 1, ..anything }, 1_000_000), (10, 0, 13_000_000));
}

#[test]
fn lines_and_limits() {
    assert!(!above_line(&SECOND, 900, 1_000) && above_line(&SECOND, 901, 1_000));
    let kept = |edition: &Edition| {
        let kept = kept_by(edition, &[7; QUARTERS], 7);
        (0..QUARTERS).filter(|&quarter| kept.has(quarter)).collect::<Vec<_>>()
    };
    assert_eq!(kept(&SECOND), (0..32).collect::<Vec<_>>());
    assert_eq!(kept(&Edition { limit: 1, ..SECOND }), [0]);
    assert_eq!(kept(&Edition { limit: 96, line: 0, ..SECOND }).len(), 96);
    assert_eq!(kept(&Edition { line: 100, ..SECOND }), []);
    assert!(kept_by(&Edition { line: 0, ..SECOND }, &[0; QUARTERS], 7).is_empty());
}

#[test]
fn weekdays_to_2060() {
    // 1 January 2029 is a Monday, 1 January 2060 a Thursday
    assert_eq!((weekday(2029, 1), weekday(2060, 1)), (0, 3));
}
