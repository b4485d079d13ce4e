//! Compiling, compared: every number, every byte, with and without room.

use vahmizar::sys;

use crate::difference::{first_difference, literal, Checked, Difference};
use crate::guarded::Guarded;
use crate::random::Random;
use crate::reading::Reading;
use crate::tally::Tally;

/// Answer lengths that are all wrong for compiling.
const WRONG_LENGTHS: [usize; 9] = [0, 1, 8, 24, 31, 33, 39, 40, 64];

/// Compares compiling of a source in buffers of several sizes. Returns the
/// record bytes of an accepted source.
pub fn check(
    reading: &Reading,
    source: &[u8],
    serial: u32,
    random: &mut Random,
    tally: &mut Tally,
) -> Checked<Option<Vec<u8>>> {
    let wanted = |out: &mut [u8]| (reading.compile)(source, serial, out);
    Call::new(reading, source, serial, &wanted, random, tally).rooms()
}

/// Compares compiling of a source with just the room that it needs. Returns
/// the record bytes of an accepted source.
pub fn check_once(
    reading: &Reading,
    source: &[u8],
    serial: u32,
    random: &mut Random,
    tally: &mut Tally,
) -> Checked<Option<Vec<u8>>> {
    let wanted = |out: &mut [u8]| (reading.compile)(source, serial, out);
    let [number, _, _, needed] = wanted(&mut []);
    let mut call = Call::new(reading, source, serial, &wanted, random, tally);
    let records = call.room(needed as usize)?;
    Ok(matches!(number, 0 | 13).then_some(records))
}

/// Calls of the library with a source, and what they are compared with.
pub struct Call<'a> {
    /// The source.
    pub source: &'a [u8],
    /// Its default serial.
    pub serial: u32,
    /// What compiling must write into a buffer, and its numbers.
    pub wanted: &'a dyn Fn(&mut [u8]) -> [u64; 4],
    /// Who wants it.
    pub name: &'a str,
    /// Where sizes and guards come from.
    pub random: &'a mut Random,
    /// What was seen.
    pub tally: &'a mut Tally,
}

impl<'a> Call<'a> {
    fn new(
        reading: &'a Reading,
        source: &'a [u8],
        serial: u32,
        wanted: &'a dyn Fn(&mut [u8]) -> [u64; 4],
        random: &'a mut Random,
        tally: &'a mut Tally,
    ) -> Call<'a> {
        Call {
            source,
            serial,
            wanted,
            name: reading.name,
            random,
            tally,
        }
    }

    /// Compares calls with several sizes of room. Returns the record bytes of
    /// an accepted source.
    pub fn rooms(&mut self) -> Checked<Option<Vec<u8>>> {
        let [number, _, _, needed] = (self.wanted)(&mut []);
        let needed = needed as usize;
        if self.random.once_in(8) {
            let length = self.random.pick(&WRONG_LENGTHS);
            self.wrong_answer(needed, length)?;
        }
        if !matches!(number, 0 | 13) {
            let room = self.random.below(600);
            self.room(room)?;
            self.room(0)?;
            return Ok(None);
        }
        let less = self.random.below(needed + 1);
        let more = needed + self.random.within(1, 100);
        for room in [0, needed.saturating_sub(1), less, more] {
            self.room(room)?;
        }
        self.room(needed).map(Some)
    }

    /// Compares one call. Returns what stands in the buffer behind it.
    pub fn room(&mut self, room: usize) -> Checked<Vec<u8>> {
        let source = Guarded::holding(self.source, self.random);
        let before = Guarded::new(room, self.random);
        let mut out = before.clone();
        let mut answer = Guarded::new(sys::COMPILE_ANSWER, self.random);
        let mut wanted_answer = answer.clone();
        let returned = sys::compile(
            source.inner(),
            self.serial,
            out.inner_mut(),
            answer.inner_mut(),
        );
        self.tally.compiled(returned);

        let mut wanted_out = before.clone();
        let numbers = (self.wanted)(wanted_out.inner_mut());
        let places = wanted_answer.inner_mut().chunks_exact_mut(8);
        for (place, number) in places.zip(numbers) {
            place.copy_from_slice(&number.to_le_bytes());
        }
        if answer != wanted_answer || returned != numbers[0] {
            let found = [0, 1, 2, 3].map(|place| sys::answer_number(answer.inner(), place));
            let rest = if found == numbers && returned == numbers[0] {
                "; bytes beside the answer were written"
            } else {
                ""
            };
            return Err(self.differs(
                room,
                &format!("answer should be {numbers:?}, is {found:?}, returned {returned}{rest}"),
            ));
        }
        if out != wanted_out {
            let words = first_difference(wanted_out.all(), out.all());
            return Err(self.differs(room, &format!("buffer with guards of 32 bytes: {words}")));
        }
        if returned != 0 && out != before {
            return Err(self.differs(room, "a refusal wrote to the buffer"));
        }
        if source.inner() != self.source {
            return Err(self.differs(room, "the source was written"));
        }
        Ok(out.inner().to_vec())
    }

    /// Compares a call whose answer slice has a wrong length.
    fn wrong_answer(&mut self, room: usize, length: usize) -> Checked {
        let source = Guarded::holding(self.source, self.random);
        let before = Guarded::new(room, self.random);
        let mut out = before.clone();
        let answer_before = Guarded::new(length, self.random);
        let mut answer = answer_before.clone();
        let returned = sys::compile(
            source.inner(),
            self.serial,
            out.inner_mut(),
            answer.inner_mut(),
        );
        self.tally.compiled(returned);
        let kept = source.inner() == self.source && out == before;
        if returned == 19 && kept && answer == answer_before {
            return Ok(());
        }
        let words = format!("an answer slice of {length} bytes: 19 wanted and nothing written");
        Err(self.differs(room, &format!("{words}, returned {returned}")))
    }

    fn differs(&self, room: usize, words: &str) -> Difference {
        Difference(format!(
            "compile: {words}\n  source: {}\n  serial: {}, room: {room}, compared with {}",
            literal(self.source),
            self.serial,
            self.name
        ))
    }
}
