//! A series given whole and the same series given day by day are answered alike, refused days among them.

use independent::calendar::{period_days, year_days};
use independent::decision::{decide_under, CustomerDays, Decision};
use independent::editions::{Edition, Editions, TODAY};
use independent::layout::Sundays;
use independent::making::{Random, PRICES};
use independent::sheet::{Quarters, Sheet};
use independent::windows::{windows_under, GridDays};
use independent::{Refusal, QUARTERS};

fn series(random: &mut Random, days: u16, most: u64) -> Vec<u32> {
    let mut series: Vec<u32> = (0..days as usize * QUARTERS).map(|_| random.between(0, most) as u32).collect();
    if random.percent(20) {
        let at = random.below(series.len() as u64) as usize;
        series[at] = u32::MAX;
    }
    series
}

/// Today's edition, and another one up to 2060.
fn two_editions() -> Editions {
    let mut editions = Editions::today();
    let later = Edition { first: 2029, last: 2060, line: 40, limit: 90, floor: 3, least_moved: 0, hours: 4_000, ..TODAY };
    assert_eq!(editions.load(later), Ok(()));
    editions
}

#[test]
fn grid() {
    let mut random = Random::new(7);
    let editions = two_editions();
    for year in 2014..=2060 {
        let series = series(&mut random, period_days(year), 200_000_000);
        let (mut whole, mut by_days) = ([0; 56], [0; 56]);
        let expected = windows_under(&editions, year, 3, &series, &mut whole);
        let (_, mut state) = GridDays::open_under(&editions, year, 3);
        assert_eq!(state.day(&[0; 95]), Err(Refusal::Length));
        let refused = Sundays::of_period(year).days(&series).find_map(|day| state.day(day).err());
        assert_eq!(refused.map_or_else(|| state.close(&mut by_days), Err), expected);
        assert_eq!(whole, by_days);
        if refused.is_none() {
            assert_eq!(state.day(&[]), Err(Refusal::Sequence));
        }
    }
}

#[test]
fn customer() {
    let mut random = Random::new(8);
    let editions = two_editions();
    for year in 2014..=2060 {
        let mut seasons = [Quarters::default(); 4];
        for _ in 0..30 {
            seasons[random.below(4) as usize].set(random.below(96) as usize);
        }
        let mut sheet = [0; 56];
        Sheet { year, level: 1, seasons }.write(&mut sheet);
        let series = series(&mut random, year_days(year), 1_000_000_000);
        let expected = decide_under(&editions, &sheet, true, &[3, 7], &PRICES, &series);
        let (_, mut state) = CustomerDays::open_under(&editions, &sheet, true, &[3, 7], &PRICES);
        assert_eq!(state.close(), Decision::Refused(Refusal::Sequence));
        let refused = Sundays::of_year(year).days(&series).find_map(|day| state.day(day).err());
        assert_eq!(refused.map_or_else(|| state.close(), Decision::Refused), expected);
    }
}
