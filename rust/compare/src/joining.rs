//! Sources joined, compared: what the whole answers and writes with what its
//! parts say of it.

use vahmizar::{sys, LONGEST_SOURCE};

use crate::compiling::Call;
use crate::difference::{literal, Checked, Difference};
use crate::parts::{are_ended, line_ends};
use crate::random::Random;
use crate::reading::Reading;
use crate::tally::{Joined, Tally};

/// Compares compiling of the whole with its parts. Returns the record bytes
/// of an accepted whole.
pub fn check(
    reading: &Reading,
    parts: &[&[u8]],
    serial: u32,
    random: &mut Random,
    tally: &mut Tally,
) -> Checked<Option<Vec<u8>>> {
    let whole = &parts.concat();
    let mut join = Join {
        reading,
        parts,
        whole,
        serial,
        random,
        tally,
    };
    let records = join.told_by_reading();
    let checked = records.and_then(|records| {
        join.told_by_library()?;
        join.closing(whole)?;
        if !parts.is_empty() {
            let part = join.random.pick(parts);
            join.closing(part)?;
        }
        Ok(records)
    });
    checked.map_err(|Difference(words)| {
        let parts: Vec<_> = parts.iter().map(|part| literal(part)).collect();
        Difference(format!("{words}\n  parts: [{}]", parts.join(", ")))
    })
}

struct Join<'a> {
    reading: &'a Reading,
    parts: &'a [&'a [u8]],
    whole: &'a [u8],
    serial: u32,
    random: &'a mut Random,
    tally: &'a mut Tally,
}

impl Join<'_> {
    /// The whole against the parts as the second implementation compiles
    /// them. Where a part isn't ended, the parts say nothing, and the whole is
    /// compared like any source.
    fn told_by_reading(&mut self) -> Checked<Option<Vec<u8>>> {
        let (reading, parts, whole, serial) = (self.reading, self.parts, self.whole, self.serial);
        let told = (reading.joined)(&reading.compile, parts, serial, &mut []);
        if told.is_some() != are_ended(parts) {
            let words = "joined: whether the parts say anything of the whole";
            let name = reading.name;
            return Err(Difference(format!("{words}\n  compared with {name}")));
        }
        let wanted = |out: &mut [u8]| {
            let told = (reading.joined)(&reading.compile, parts, serial, out);
            told.unwrap_or_else(|| (reading.compile)(whole, serial, out))
        };
        let records = self.call(whole, &wanted, reading.name).rooms()?;
        let first = parts.first().map_or(0, |part| line_ends(part));
        self.tally.joined(match told {
            None => Joined::NotEnded,
            Some([0 | 13, ..]) => Joined::Accepted,
            Some([_, line, ..]) if line > first => Joined::RefusedLater,
            Some(_) => Joined::Refused,
        });
        Ok(records)
    }

    /// The whole against the parts as the library itself compiles them, put
    /// together in the same way.
    fn told_by_library(&mut self) -> Checked {
        let (reading, parts, serial) = (self.reading, self.parts, self.serial);
        let wanted = |out: &mut [u8]| (reading.joined)(&library, parts, serial, out);
        let Some(numbers) = wanted(&mut []) else {
            return Ok(());
        };
        let wanted = |out: &mut [u8]| wanted(out).unwrap_or_default();
        let name = "the library's own answers for the parts";
        let room = self.room(numbers);
        self.call(self.whole, &wanted, name).room(room).map(drop)
    }

    /// A byte 10 behind a source changes nothing.
    fn closing(&mut self, source: &[u8]) -> Checked {
        let open = source.strip_suffix(b"\n").unwrap_or(source);
        let closed = [open, b"\n"].concat();
        if closed.len() > LONGEST_SOURCE {
            return Ok(());
        }
        let serial = self.serial;
        let wanted = |out: &mut [u8]| library(open, serial, out);
        let name = "the library's own answer without the byte 10 at the end";
        let room = self.room(wanted(&mut []));
        self.call(&closed, &wanted, name).room(room).map(drop)
    }

    /// A size of room for a source that answers so without any: what it needs
    /// or less, and any for a bad one.
    fn room(&mut self, [number, _, _, needed]: [u64; 4]) -> usize {
        let needed = needed as usize;
        match number {
            0 | 13 if self.random.once_in(3) => self.random.below(needed + 1),
            0 | 13 => needed,
            _ => self.random.below(600),
        }
    }

    fn call<'c>(
        &'c mut self,
        source: &'c [u8],
        wanted: &'c dyn Fn(&mut [u8]) -> [u64; 4],
        name: &'c str,
    ) -> Call<'c> {
        Call {
            source,
            serial: self.serial,
            wanted,
            name,
            random: self.random,
            tally: self.tally,
        }
    }
}

/// The numbers that the library answers.
pub fn library(source: &[u8], serial: u32, out: &mut [u8]) -> [u64; 4] {
    let mut answer = [0; sys::COMPILE_ANSWER];
    sys::compile(source, serial, out, &mut answer);
    [0, 1, 2, 3].map(|place| sys::answer_number(&answer, place))
}
