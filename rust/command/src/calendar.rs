//! The Gregorian calendar, also for the years before it was made.

/// Days of 400 years, after which it repeats.
const CYCLE: i64 = 146_097;

fn is_leap(year: i64) -> bool {
    year % 4 == 0 && (year % 100 != 0 || year % 400 == 0)
}

fn year_length(year: i64) -> i64 {
    365 + i64::from(is_leap(year))
}

/// Days of a month, from 1.
pub fn month_length(year: i64, month: i64) -> i64 {
    match month {
        2 => 28 + i64::from(is_leap(year)),
        4 | 6 | 9 | 11 => 30,
        _ => 31,
    }
}

/// Days from 0000-01-01 to a date.
pub fn days(year: i64, month: i64, day: i64) -> i64 {
    let cycles = year.div_euclid(400) * CYCLE;
    let years: i64 = (0..year.rem_euclid(400)).map(year_length).sum();
    let months: i64 = (1..month).map(|month| month_length(year, month)).sum();
    cycles + years + months + day - 1
}

/// The date so many days behind 0000-01-01.
pub fn date(days: i64) -> (i64, i64, i64) {
    let mut year = days.div_euclid(CYCLE) * 400;
    let mut left = days.rem_euclid(CYCLE);
    while left >= year_length(year) {
        left -= year_length(year);
        year += 1;
    }
    let mut month = 1;
    while left >= month_length(year, month) {
        left -= month_length(year, month);
        month += 1;
    }
    (year, month, left + 1)
}

#[cfg(test)]
mod tests {
    use super::*;

    #[test]
    fn every_day_follows_the_last() {
        let mut last = days(1895, 12, 31);
        for year in 1896..2105 {
            for month in 1..=12 {
                for day in 1..=month_length(year, month) {
                    last += 1;
                    assert_eq!(days(year, month, day), last);
                    assert_eq!(date(last), (year, month, day));
                }
            }
        }
        assert_eq!(days(0, 1, 1), 0);
        assert_eq!(days(1970, 1, 1), 719_528);
        assert_eq!(days(400, 1, 1), CYCLE);
        assert_eq!(date(-1), (-1, 12, 31));
    }
}
