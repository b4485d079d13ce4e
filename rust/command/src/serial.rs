//! The serial number of SOA records without their own.

use std::ffi::OsStr;
use std::time::{SystemTime, UNIX_EPOCH};

use crate::failure::Failure;

/// Reads what stood behind `--serial`.
pub fn parse_serial(text: &str) -> Result<u32, Failure> {
    let digits = !text.is_empty() && text.bytes().all(|byte| byte.is_ascii_digit());
    let number = digits.then(|| text.parse().ok()).flatten();
    number.ok_or_else(|| {
        let text = OsStr::new(text).display();
        Failure::usage(format!(
            "--serial: {text} is no number from 0 to 4294967295"
        ))
    })
}

/// Seconds of Unix time, modulo 2^32; 1 in place of 0, as tinydns-data has it.
pub fn modification_serial(time: SystemTime) -> u32 {
    let seconds = match time.duration_since(UNIX_EPOCH) {
        Ok(since) => since.as_secs() as u32,
        Err(before) => {
            let before = before.duration();
            // A part of a second before counts as the second that it lies in.
            let seconds = before.as_secs() + u64::from(before.subsec_nanos() > 0);
            (seconds as u32).wrapping_neg()
        }
    };
    seconds.max(1)
}

#[cfg(test)]
mod tests {
    use super::*;
    use std::time::Duration;

    #[test]
    fn serials_from_times() {
        let at = |seconds| UNIX_EPOCH + Duration::from_secs(seconds);
        assert_eq!(modification_serial(at(0)), 1);
        assert_eq!(modification_serial(at(1 << 32)), 1);
        assert_eq!(modification_serial(at(1_700_000_000)), 1_700_000_000);
        assert_eq!(modification_serial(at((1 << 32) + 5)), 5);
        let before = UNIX_EPOCH - Duration::from_millis(1500);
        assert_eq!(modification_serial(before), u32::MAX - 1);
    }

    #[test]
    fn serials_from_words() {
        assert_eq!(parse_serial("4294967295").unwrap(), u32::MAX);
        for bad in ["", "+1", "-1", "4294967296", "1x", " 1"] {
            assert!(parse_serial(bad).is_err(), "{bad}");
        }
    }
}
