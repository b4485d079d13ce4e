//! Dates with a time of day, in UTC. Leap seconds aren't counted, as the clock
//! of Unix counts none.

use crate::calendar::{date, days, month_length};

/// How a date may be written.
pub const FORM: &str = "write it in UTC as 2026-11-17, 2026-11-17T03:00 or 2026-11-17T03:00:00Z";

/// Days from 0000-01-01 to 1970-01-01.
const UNIX_START: i64 = 719_528;
/// Seconds of a day.
const DAY: i64 = 86_400;

/// Whether the text is meant as a date: it begins with a year and a dash.
pub fn is_meant(text: &str) -> bool {
    number::<4>(text).is_some_and(|(_, rest)| rest.starts_with('-'))
}

/// Seconds of Unix time, or words on what to write instead.
pub fn parse(text: &str) -> Result<i64, String> {
    let ([year, month, day, hour, minute, second], rest) = read(text).ok_or(FORM)?;
    match rest.chars().next() {
        None => (),
        Some('Z' | 'z') if rest.len() == 1 => (),
        Some('.' | ',') => return Err("write whole seconds".to_owned()),
        Some('+' | '-' | 'a'..='z' | 'A'..='Z') => {
            let words = "only UTC is taken: write the time in UTC, with Z or nothing behind it";
            return Err(words.to_owned());
        }
        Some(_) => return Err(FORM.to_owned()),
    }
    within("month", month, 1, 12)?;
    if day < 1 || day > month_length(year, month) {
        let length = month_length(year, month);
        return Err(format!(
            "month {month:02} of {year:04} has {length} days: write 01 to {length}"
        ));
    }
    let day_end = "; a day ends at 00:00 of the next";
    within("hour", hour, 0, 23).map_err(|words| words + day_end)?;
    within("minute", minute, 0, 59)?;
    let no_leaps = "; leap seconds aren't counted";
    within("second", second, 0, 59).map_err(|words| words + no_leaps)?;
    let days = days(year, month, day) - UNIX_START;
    Ok(days * DAY + hour * 3600 + minute * 60 + second)
}

/// The date of seconds of Unix time, if its year has four digits.
pub fn show(seconds: i64) -> Option<String> {
    let (year, month, day) = date(seconds.div_euclid(DAY).checked_add(UNIX_START)?);
    let second = seconds.rem_euclid(DAY);
    let (hour, minute, second) = (second / 3600, second / 60 % 60, second % 60);
    (0..=9999)
        .contains(&year)
        .then(|| format!("{year:04}-{month:02}-{day:02}T{hour:02}:{minute:02}:{second:02}Z"))
}

fn within(what: &str, number: i64, least: i64, most: i64) -> Result<(), String> {
    if (least..=most).contains(&number) {
        return Ok(());
    }
    Err(format!(
        "there is no {what} {number:02}: write {least:02} to {most:02}"
    ))
}

/// The six numbers, and what stands behind them.
fn read(text: &str) -> Option<([i64; 6], &str)> {
    let (year, rest) = number::<4>(text)?;
    let (month, rest) = number::<2>(rest.strip_prefix('-')?)?;
    let (day, rest) = number::<2>(rest.strip_prefix('-')?)?;
    let Some(time) = rest.strip_prefix(['T', 't', ' ']) else {
        return Some(([year, month, day, 0, 0, 0], rest));
    };
    let (hour, rest) = number::<2>(time)?;
    let (minute, rest) = number::<2>(rest.strip_prefix(':')?)?;
    let (second, rest) = match rest.strip_prefix(':') {
        Some(second) => number::<2>(second)?,
        None => (0, rest),
    };
    Some(([year, month, day, hour, minute, second], rest))
}

/// The number of the first `DIGITS` digits.
fn number<const DIGITS: usize>(text: &str) -> Option<(i64, &str)> {
    let (digits, rest) = text.split_at_checked(DIGITS)?;
    let plain = digits.bytes().all(|byte| byte.is_ascii_digit());
    plain.then_some((digits.parse().ok()?, rest))
}

#[cfg(test)]
mod tests {
    use super::*;

    #[test]
    fn there_and_back() {
        for (text, seconds) in [
            ("1970-01-01T00:00:00Z", 0),
            ("2000-02-19T22:04:31Z", 950_997_871),
            ("2000-02-29T00:00:00Z", 951_782_400),
            ("1969-12-31T23:59:59Z", -1),
            ("2026-11-17T03:00:00Z", 1_794_884_400),
            ("0000-01-01T00:00:00Z", -62_167_219_200),
            ("9999-12-31T23:59:59Z", 253_402_300_799),
        ] {
            assert_eq!(parse(text), Ok(seconds));
            assert_eq!(show(seconds).as_deref(), Some(text));
        }
        for far in [-62_167_219_201, 253_402_300_800, i64::MIN, i64::MAX] {
            assert_eq!(show(far), None);
        }
    }

    #[test]
    fn shorter_forms() {
        let whole = parse("2026-11-17T03:00:00Z");
        for text in [
            "2026-11-17T03:00Z",
            "2026-11-17T03:00",
            "2026-11-17 03:00:00",
            "2026-11-17t03:00z",
        ] {
            assert_eq!(parse(text), whole, "{text}");
        }
        let day = parse("2026-11-17T00:00:00");
        assert_eq!(parse("2026-11-17"), day);
        assert_eq!(parse("2026-11-17Z"), day);
    }

    #[test]
    fn what_is_no_date() {
        for (text, said) in [
            ("2026-13-01", "there is no month 13: write 01 to 12"),
            ("2026-00-01", "there is no month 00: write 01 to 12"),
            ("2026-02-29", "month 02 of 2026 has 28 days: write 01 to 28"),
            ("1900-02-29", "month 02 of 1900 has 28 days: write 01 to 28"),
            ("2026-11-31", "month 11 of 2026 has 30 days: write 01 to 30"),
            ("2026-11-00", "month 11 of 2026 has 30 days: write 01 to 30"),
            (
                "2026-11-17T24:00",
                "there is no hour 24: write 00 to 23; a day ends at 00:00 of the next",
            ),
            ("2026-11-17T03:60", "there is no minute 60: write 00 to 59"),
            (
                "2016-12-31T23:59:60Z",
                "there is no second 60: write 00 to 59; leap seconds aren't counted",
            ),
        ] {
            assert_eq!(parse(text), Err(said.to_owned()), "{text}");
        }
        for offset in ["+01:00", "-05", "ZZ", " CET", "CET", "Zulu", "+00:00"] {
            let text = format!("2026-11-17T03:00{offset}");
            let words = parse(&text).unwrap_err();
            assert!(words.contains("UTC"), "{text}: {words}");
        }
        assert_eq!(
            parse("2026-11-17T03:00:00.5Z"),
            Err("write whole seconds".to_owned())
        );
        for text in [
            "2026-1-17",
            "2026-11-1",
            "2026-11",
            "2026-11-17T",
            "2026-11-17T3:00",
            "2026-11-17T03",
            "2026-11-17T03:0",
            "2026-11-17T03:00:",
            "2026-11-17:03:00",
            "2026-11-17T+3:00",
            "2026-11-١",
            "2026-11-17_",
        ] {
            assert_eq!(parse(text), Err(FORM.to_owned()), "{text}");
        }
    }
}
