//! Sources joined. Each is judged and compiled by itself, and its records stand
//! behind those of the sources in front of it: it is proved that the joined
//! bytes would give the same ones.

use std::ffi::OsString;
use std::path::Path;
use std::time::SystemTime;

use vahmizar::{Refusal, LONGEST_SOURCE};

use crate::failure::Failure;
use crate::refusal;
use crate::serial::modification_serial;
use crate::sources::Source;

/// For sizes alone, which don't depend on it: any serial number takes 4 bytes.
const ANY_SERIAL: u32 = 1;

/// The sources of a call, read in the order given.
#[derive(Default)]
pub struct Joined<'a> {
    parts: Vec<(&'a Path, Part)>,
    latest: Option<SystemTime>,
    length: Length,
}

enum Part {
    Held(Source),
    /// Not held, since nothing will be compiled: what is said of it is known.
    Told(Result<usize, Failure>),
}

/// What is said of the sources of a call.
#[derive(Default)]
pub struct Judged<'a> {
    /// Those that are good by themselves, and the bytes that their records take.
    pub good: Vec<(&'a Path, usize)>,
    /// What is wrong with the others, in order, and with all of them joined.
    pub failures: Vec<Failure>,
}

impl<'a> Joined<'a> {
    /// Reads every source, one after the other.
    pub fn read(paths: &'a [OsString]) -> Joined<'a> {
        let mut joined = Joined::default();
        for path in paths.iter().map(Path::new) {
            let part = match Source::read(path) {
                Ok(source) => joined.add(path, source),
                Err(error) => {
                    joined.length.is_unknown = true;
                    Part::Told(Err(Failure::file(path, error)))
                }
            };
            joined.parts.push((path, part));
        }
        joined
    }

    fn add(&mut self, path: &Path, source: Source) -> Part {
        self.length.add(&source.bytes);
        self.latest = self.latest.max(Some(source.modified));
        // However many there are, no more is held than one may have.
        if self.length.is_over() {
            let judged = vahmizar::check(&source.bytes, ANY_SERIAL);
            let told = judged.map_err(|refused| refusal::of_source(path, &source.bytes, refused));
            return Part::Told(told);
        }
        Part::Held(source)
    }

    /// Has each source judged by itself, by a function of its bytes and the
    /// serial number that says how many bytes its records take. Where no serial
    /// number is given it is made of the time of the latest change.
    pub fn judge(
        self,
        serial: Option<u32>,
        mut judge: impl FnMut(&[u8], u32) -> Result<usize, Refusal>,
    ) -> Judged<'a> {
        let latest = self.latest.map_or(ANY_SERIAL, modification_serial);
        let serial = serial.unwrap_or(latest);
        let count = self.parts.len();
        let mut judged = Judged::default();
        for (path, part) in self.parts {
            let told = match part {
                Part::Held(source) => judge(&source.bytes, serial)
                    .map_err(|refused| refusal::of_source(path, &source.bytes, refused)),
                Part::Told(told) => told,
            };
            match told {
                Ok(room) => judged.good.push((path, room)),
                Err(failure) => judged.failures.push(failure),
            }
        }
        if self.length.is_over() && !self.length.is_unknown {
            let refused = refusal::of_joined(count, self.length.bytes);
            judged.failures.push(refused);
        }
        judged
    }
}

/// How long the sources are joined.
#[derive(Default)]
struct Length {
    bytes: u64,
    /// Whether the last line has no end yet. If a source follows it gets one.
    is_unclosed: bool,
    /// Whether a source couldn't be read, or not to its end.
    is_unknown: bool,
}

impl Length {
    fn add(&mut self, source: &[u8]) {
        self.bytes += u64::from(self.is_unclosed) + source.len() as u64;
        self.is_unclosed = source.last().is_some_and(|&byte| byte != b'\n');
        self.is_unknown |= source.len() > LONGEST_SOURCE;
    }

    fn is_over(&self) -> bool {
        self.bytes > LONGEST_SOURCE as u64
    }
}

#[cfg(test)]
mod tests {
    use super::*;

    #[test]
    fn every_source_but_the_last_is_closed() {
        for (sources, bytes) in [
            (&[][..], 0),
            (&["#"], 1),
            (&["#", "#"], 3),
            (&["#\n", "#"], 3),
            (&["#\n", "#\n"], 4),
            (&["", "#"], 1),
            (&["#", ""], 2),
            (&["#", "", "", "#"], 3),
            (&["\n", "", "\n"], 2),
        ] {
            let mut length = Length::default();
            for source in sources {
                length.add(source.as_bytes());
            }
            assert_eq!(length.bytes, bytes, "{sources:?}");
        }
    }
}
