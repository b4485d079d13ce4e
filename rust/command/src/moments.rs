//! Moments as people write them.

use vahmizar::Moment;

use crate::dates;

const NO_MOMENT: &str = "this is no moment: write now, a date in UTC as 2026-11-17T03:00:00Z, \
     seconds of Unix time, or 16 hex digits";

/// Reads `now`, a date, seconds of Unix time, or 16 hex digits with or without
/// `@`. The error says what to write instead.
pub fn parse(text: &str) -> Result<Moment, String> {
    if text == "now" {
        return Ok(Moment::now());
    }
    let digits = text.strip_prefix('@').unwrap_or(text);
    if digits.len() == 16 && digits.bytes().all(|byte| byte.is_ascii_hexdigit()) {
        let number = u64::from_str_radix(digits, 16).expect("16 hex digits");
        return Ok(Moment::from_tai64(number));
    }
    if dates::is_meant(text) {
        return dates::parse(text).map(Moment::from_unix);
    }
    let seconds = text.parse().map_err(|_| NO_MOMENT)?;
    let moment = Moment::from_unix(seconds);
    if unix(moment) != i128::from(seconds) {
        return Err("this is before the first moment, 0000000000000000".to_owned());
    }
    Ok(moment)
}

/// The date of a moment, or its seconds of Unix time where the year hasn't
/// four digits. Both can be read again.
pub fn show(moment: Moment) -> String {
    let seconds = unix(moment);
    let date = i64::try_from(seconds).ok().and_then(dates::show);
    date.unwrap_or_else(|| seconds.to_string())
}

fn unix(moment: Moment) -> i128 {
    i128::from(moment.tai64()) - i128::from(Moment::from_unix(0).tai64())
}

#[cfg(test)]
mod tests {
    use super::*;

    #[test]
    fn moments() {
        let time = Moment::from_tai64(0x4000_0000_38af_1379);
        for text in [
            "4000000038af1379",
            "@4000000038AF1379",
            "950997871",
            "2000-02-19T22:04:31Z",
            "2000-02-19 22:04:31",
        ] {
            assert_eq!(parse(text), Ok(time), "{text}");
        }
        assert_eq!(parse("-10"), Ok(Moment::from_tai64(1 << 62)));
        assert_eq!(parse("-4611686018427387914"), Ok(Moment::from_tai64(0)));
        assert!(parse("-4611686018427387915").is_err());
        assert!(parse("now").is_ok());
        for bad in [
            "",
            "@950997871",
            "soon",
            "4000000038af137",
            "1e9",
            "@",
            "03:00",
        ] {
            assert_eq!(parse(bad), Err(NO_MOMENT.to_owned()), "{bad}");
        }
        assert_eq!(parse("2026-11"), Err(dates::FORM.to_owned()));
    }

    #[test]
    fn what_is_shown_can_be_read() {
        for number in [0, 1, 1 << 62, 0x4000_0000_38af_1379, (1 << 63) - 1] {
            let moment = Moment::from_tai64(number);
            assert_eq!(parse(&show(moment)), Ok(moment));
        }
        assert_eq!(show(Moment::from_tai64(0)), "-4611686018427387914");
        assert_eq!(show(Moment::from_unix(0)), "1970-01-01T00:00:00Z");
        assert_eq!(show(Moment::from_tai64(u64::MAX)), "13835058055282163701");
    }
}
