//! Moments, as questions and times of lines count them.

use std::time::{SystemTime, UNIX_EPOCH};

/// A moment: a TAI64 number of seconds.
#[derive(Clone, Copy, Debug, PartialEq, Eq, PartialOrd, Ord, Hash)]
pub struct Moment(u64);

/// The number of 1970-01-01 00:00:00 UTC. The clock of Unix counts no leap
/// seconds, so the ten of that time are all there are.
const UNIX_START: u64 = (1 << 62) + 10;

impl Moment {
    /// The moment of a TAI64 number. Questions take those below 2^63.
    pub const fn from_tai64(number: u64) -> Moment {
        Moment(number)
    }

    /// The moment of a Unix time, in seconds.
    ///
    /// ```
    /// use vahmizar::Moment;
    /// assert_eq!(Moment::from_unix(950_997_871).tai64(), 0x4000000038af1379);
    /// ```
    pub const fn from_unix(seconds: i64) -> Moment {
        Moment(UNIX_START.saturating_add_signed(seconds))
    }

    /// The present moment.
    pub fn now() -> Moment {
        let seconds = match SystemTime::now().duration_since(UNIX_EPOCH) {
            Ok(since) => i64::try_from(since.as_secs()).unwrap_or(i64::MAX),
            Err(before) => i64::try_from(before.duration().as_secs()).map_or(i64::MIN, |s| -s),
        };
        Moment::from_unix(seconds)
    }

    /// The TAI64 number.
    pub const fn tai64(self) -> u64 {
        self.0
    }
}

#[cfg(test)]
mod tests {
    use super::*;

    #[test]
    fn unix_times() {
        assert_eq!(Moment::from_unix(0).tai64(), 0x4000_0000_0000_000a);
        assert_eq!(Moment::from_unix(-11).tai64(), 0x3fff_ffff_ffff_ffff);
        assert_eq!(Moment::from_unix(i64::MIN).tai64(), 0);
        assert!(Moment::now() > Moment::from_unix(1_500_000_000));
    }
}
