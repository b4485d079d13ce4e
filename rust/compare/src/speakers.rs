//! Who answers in the cases of what an answer doesn't depend on: the library,
//! held to a second implementation as always, or such an implementation alone.

use vahmizar::sys;

use crate::asking::{self, Told};
use crate::cases;
use crate::compiling;
use crate::difference::Checked;
use crate::random::Random;
use crate::reading::{Asked, Meant, Reading};
use crate::tally::Tally;

/// Compiles and answers.
pub trait Speaker {
    /// The second implementation.
    fn reading(&self) -> &Reading;

    /// The record bytes of a source with its serial; `None` if it is refused.
    fn compile(&mut self, source: &[u8], serial: u32) -> Checked<Option<Vec<u8>>>;

    /// The answers of any bytes to a question.
    fn ask(&mut self, records: &[u8], asked: &Asked) -> Checked<Told>;

    /// The answers of what a source with its serial became.
    fn answers(
        &mut self,
        source: (&[u8], u32),
        records: &[u8],
        asked: &[Asked],
    ) -> Checked<Vec<Told>>;
}

/// The library, beside a second implementation.
pub struct Library<'a> {
    /// What it is held to.
    pub reading: &'a Reading,
    /// Where sizes and guards come from.
    pub random: &'a mut Random,
    /// What was seen.
    pub tally: &'a mut Tally,
}

impl Speaker for Library<'_> {
    fn reading(&self) -> &Reading {
        self.reading
    }

    fn compile(&mut self, source: &[u8], serial: u32) -> Checked<Option<Vec<u8>>> {
        compiling::check_once(self.reading, source, serial, self.random, self.tally)
    }

    fn ask(&mut self, records: &[u8], asked: &Asked) -> Checked<Told> {
        asking::check(self.reading, records, asked, self.random, self.tally)
    }

    fn answers(
        &mut self,
        source: (&[u8], u32),
        records: &[u8],
        asked: &[Asked],
    ) -> Checked<Vec<Told>> {
        let (random, tally) = (&mut *self.random, &mut *self.tally);
        cases::answers(self.reading, source, records, asked, random, tally)
    }
}

/// A second implementation with nothing beside it.
pub struct Alone<'a>(pub &'a Reading);

impl Speaker for Alone<'_> {
    fn reading(&self) -> &Reading {
        self.0
    }

    fn compile(&mut self, source: &[u8], serial: u32) -> Checked<Option<Vec<u8>>> {
        let [number, _, _, needed] = (self.0.compile)(source, serial, &mut []);
        if !matches!(number, 0 | 13) {
            return Ok(None);
        }
        let mut records = vec![0; needed as usize];
        (self.0.compile)(source, serial, &mut records);
        Ok(Some(records))
    }

    fn ask(&mut self, records: &[u8], asked: &Asked) -> Checked<Told> {
        let mut list = Vec::new();
        loop {
            let mut answer = [0; sys::ASK_ANSWER];
            (self.0.ask)(records, asked, list.len() as u64, &mut answer);
            let numbers = asking::numbers(&answer);
            let [number, .., outcome] = numbers;
            if number != 0 {
                let end = number;
                return Ok(Told { outcome, list, end });
            }
            list.push(numbers);
        }
    }

    fn answers(&mut self, _: (&[u8], u32), records: &[u8], asked: &[Asked]) -> Checked<Vec<Told>> {
        asked.iter().map(|asked| self.ask(records, asked)).collect()
    }
}

/// Its reading of the lines, with nothing beside it.
pub struct LinesAlone<'a>(pub Alone<'a>);

impl Speaker for LinesAlone<'_> {
    fn reading(&self) -> &Reading {
        self.0.reading()
    }

    fn compile(&mut self, source: &[u8], serial: u32) -> Checked<Option<Vec<u8>>> {
        self.0.compile(source, serial)
    }

    fn ask(&mut self, records: &[u8], asked: &Asked) -> Checked<Told> {
        self.0.ask(records, asked)
    }

    fn answers(
        &mut self,
        (source, serial): (&[u8], u32),
        _: &[u8],
        asked: &[Asked],
    ) -> Checked<Vec<Told>> {
        let meant = (self.reading().meaning)(source, serial, asked);
        Ok(meant.into_iter().map(told).collect())
    }
}

/// What the lines say, as asking tells it.
fn told(meant: Meant) -> Told {
    let (outcome, given, end) = match meant {
        Ok((outcome, given)) => (outcome, given, 18),
        Err(number) => (0, Vec::new(), number),
    };
    let numbers = given.iter().map(|given| {
        let length = given.data.len() as u64;
        let place = given.end.saturating_sub(length);
        let (record_type, lifetime) = (given.record_type.into(), given.lifetime.into());
        [0, record_type, lifetime, place, length, outcome]
    });
    let list = numbers.collect();
    Told { outcome, list, end }
}
