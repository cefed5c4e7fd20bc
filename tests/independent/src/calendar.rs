//! Weekdays, seasons, the reference period, the days that carry windows (Rules 3.1 to 3.4 and 4.1).

pub const MOST_HOLIDAYS: usize = 40;
pub const LONGEST_YEAR: usize = 366;

const MONTH_DAYS: [u16; 12] = [31, 28, 31, 30, 31, 30, 31, 31, 30, 31, 30, 31];
const DAYS_BEFORE_MONTH: [u16; 12] = [0, 31, 59, 90, 120, 151, 181, 212, 243, 273, 304, 334];
const SEASON_OF_MONTH: [usize; 12] = [1, 1, 2, 2, 2, 3, 3, 3, 4, 4, 4, 1];

const MONDAY: u16 = 0;
const FRIDAY: u16 = 4;
const SATURDAY: u16 = 5;

pub fn is_leap(year: u16) -> bool {
    year % 4 == 0 && (year % 100 != 0 || year % 400 == 0)
}

pub fn year_days(year: u16) -> u16 {
    365 + is_leap(year) as u16
}

/// Day of the year, from 1; month and day from 1.
pub fn day_of(year: u16, month: usize, day: u16) -> u16 {
    DAYS_BEFORE_MONTH[month - 1] + (month > 2 && is_leap(year)) as u16 + day
}

pub fn month_days(year: u16, month: usize) -> u16 {
    MONTH_DAYS[month - 1] + (month == 2 && is_leap(year)) as u16
}

/// Season 1 to 4 of a month from 1.
pub fn season_of_month(month: usize) -> usize {
    SEASON_OF_MONTH[month - 1]
}

/// From 0 for Monday to 6 for Sunday; the day counts from 1. 1 January 2014 was a Wednesday, and so 1 January 2012, the
/// first of the years that a reference period has days of, a Sunday.
pub fn weekday(year: u16, day: u16) -> u16 {
    let leap_years_to = |year: u32| year / 4 - year / 100 + year / 400;
    let leaps = leap_years_to(year as u32 - 1) - leap_years_to(2011);
    let days = 365 * (year as u32 - 2012) + leaps + day as u32 - 1;
    ((days + 6) % 7) as u16
}

/// The last Sunday of a month of 31 days, as a day of the year.
pub fn last_sunday(year: u16, month: usize) -> u16 {
    let last = day_of(year, month, 31);
    last - (weekday(year, last) + 1) % 7
}

pub fn holidays_allowed(year: u16, holidays: &[u16]) -> bool {
    holidays.len() <= MOST_HOLIDAYS && holidays.iter().all(|&day| (1..=year_days(year)).contains(&day)) && holidays.windows(2).all(|pair| pair[0] < pair[1])
}

/// For each day of an allowed year (day 1 at place 0) whether it carries windows; the list is allowed.
pub fn carrying_days(year: u16, holidays: &[u16]) -> [bool; LONGEST_YEAR] {
    let days = year_days(year);
    let mut listed = [false; LONGEST_YEAR + 2];
    for &day in holidays {
        listed[day as usize] = true;
    }
    let christmas_eve = day_of(year, 12, 24);
    let mut carries = [false; LONGEST_YEAR];
    let mut weekday = weekday(year, 1);
    let mut monday_is_bridge = false;
    for day in 1..=days {
        let at = day as usize;
        let free = weekday >= SATURDAY || listed[at] || day == 1 || day >= christmas_eve;
        let mut bridge = false;
        if weekday == MONDAY {
            bridge = !free && listed[at + 1];
            monday_is_bridge = bridge;
        } else if weekday == FRIDAY {
            bridge = !free && listed[at - 1] && !monday_is_bridge;
        }
        carries[at - 1] = !free && !bridge;
        weekday = (weekday + 1) % 7;
    }
    carries
}

/// The months, from 1, of the reference period of a charge year in order: (month, its days). September of the last year
/// but one comes first, August of the last year last.
pub fn period_months(year: u16) -> [(usize, u16); 12] {
    [9, 10, 11, 12, 1, 2, 3, 4, 5, 6, 7, 8].map(|month| (month, month_days(if month >= 9 { year - 2 } else { year - 1 }, month)))
}

pub fn period_days(year: u16) -> u16 {
    period_months(year).iter().map(|&(_, days)| days).sum()
}

/// The seasons, from 1, of a year's days in order, as runs: (season, days).
pub fn year_seasons(year: u16) -> [(usize, u16); 12] {
    [1, 2, 3, 4, 5, 6, 7, 8, 9, 10, 11, 12].map(|month| (season_of_month(month), month_days(year, month)))
}
