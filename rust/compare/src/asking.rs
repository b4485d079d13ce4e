//! Asking, compared: every ordinal, every byte of the answer, and what holds
//! of all answers to a question together.

use vahmizar::sys;

use crate::difference::{literal, Checked, Difference};
use crate::guarded::Guarded;
use crate::random::Random;
use crate::reading::{Asked, Reading};
use crate::tally::Tally;

/// Answer lengths that are all wrong for asking.
const WRONG_LENGTHS: [usize; 13] = [0, 1, 8, 31, 32, 39, 40, 41, 47, 49, 56, 80, 96];

/// The number of an answer without a record at the ordinal.
const NO_MORE: u64 = 18;

/// What asking told at all ordinals.
pub struct Told {
    /// The outcome, 0 for a refusal.
    pub outcome: u64,
    /// The answers that are records.
    pub list: Vec<[u64; 6]>,
    /// The number right behind them.
    pub end: u64,
}

/// Compares the answers to a question at every ordinal up to past the last,
/// and at some far ones.
pub fn check(
    reading: &Reading,
    records: &[u8],
    asked: &Asked,
    random: &mut Random,
    tally: &mut Tally,
) -> Checked<Told> {
    let lent = Guarded::holding(records, random);
    let mut call = Call {
        reading,
        records,
        lent: &lent,
        asked,
        random,
        tally,
    };
    let mut list = Vec::new();
    let last = loop {
        let numbers = call.ordinal(list.len() as u64)?;
        if numbers[0] != 0 {
            break numbers;
        }
        list.push(numbers);
    };
    // A number of 32 bits would take these for small ones.
    let far = 1 << 32 | call.random.below(list.len() + 1) as u64;
    let next = list.len() as u64 + 1;
    for ordinal in [next, 1 << 32, far, u64::MAX] {
        if call.ordinal(ordinal)? != last {
            return Err(call.differs(ordinal, "not as right behind the list"));
        }
    }
    if call.random.once_in(8) {
        let length = call.random.pick(&WRONG_LENGTHS);
        call.wrong_answer(length)?;
    }
    if lent.inner() != records {
        return Err(call.differs(0, "the records were written"));
    }
    let [end, _, _, _, _, outcome] = last;
    call.tally.told(outcome);
    call.laws(outcome, &list)?;
    Ok(Told { outcome, list, end })
}

struct Call<'a> {
    reading: &'a Reading,
    records: &'a [u8],
    lent: &'a Guarded,
    asked: &'a Asked,
    random: &'a mut Random,
    tally: &'a mut Tally,
}

impl Call<'_> {
    fn ordinal(&mut self, ordinal: u64) -> Checked<[u64; 6]> {
        let (returned, answer) = self.both(ordinal, sys::ASK_ANSWER)?;
        let numbers = numbers(&answer);
        let [number, record_type, lifetime, place, length, outcome] = numbers;
        if returned != number {
            return Err(self.differs(ordinal, "the call returns another number"));
        }
        if number != 0 && (record_type, lifetime, place, length) != (0, 0, 0, 0) {
            return Err(self.differs(ordinal, "numbers without a record"));
        }
        if place + length > self.records.len() as u64 {
            return Err(self.differs(ordinal, "the data lie outside the records"));
        }
        match (number, outcome) {
            (0, 2..=3) | (NO_MORE, 1..=5) | (14..=17, 0) => Ok(numbers),
            _ => Err(self.differs(ordinal, "no such answer")),
        }
    }

    fn wrong_answer(&mut self, length: usize) -> Checked {
        match self.both(0, length)? {
            (19, _) => Ok(()),
            (returned, _) => {
                let words = format!("19 wanted for {length} bytes, returned {returned}");
                Err(self.differs(0, &words))
            }
        }
    }

    /// Calls the library with an answer slice of this length and compares all
    /// that it leaves behind with the second implementation.
    fn both(&mut self, ordinal: u64, length: usize) -> Checked<(u64, Vec<u8>)> {
        let name = Guarded::holding(&self.asked.name, self.random);
        let client = Guarded::holding(&self.asked.client, self.random);
        let mut answer = Guarded::new(length, self.random);
        let mut wanted_answer = answer.clone();
        let returned = sys::ask(
            self.lent.inner(),
            name.inner(),
            self.asked.record_type,
            client.inner(),
            self.asked.moment,
            ordinal,
            answer.inner_mut(),
        );
        self.tally.asked(returned);
        let slice = wanted_answer.inner_mut();
        let wanted = (self.reading.ask)(self.records, self.asked, ordinal, slice);
        if returned != wanted || answer != wanted_answer {
            let mut words = format!(
                "returned {returned} with {}, wanted {wanted} with {}",
                shown(&answer),
                shown(&wanted_answer)
            );
            if answer.inner() == wanted_answer.inner() {
                words += "; bytes beside the answer, or the number returned";
            }
            return Err(self.differs(ordinal, &words));
        }
        if name.inner() != self.asked.name || client.inner() != self.asked.client {
            return Err(self.differs(ordinal, "the question was written"));
        }
        Ok((returned, answer.inner().to_vec()))
    }

    /// What holds of every outcome and its list, without a second opinion.
    fn laws(&self, outcome: u64, list: &[[u64; 6]]) -> Checked {
        if list.is_empty() == matches!(outcome, 2 | 3) {
            return Err(self.differs(0, "list and outcome don't belong together"));
        }
        let wanted = match (outcome, self.asked.record_type) {
            (2, _) => Some(2),
            (_, 255) => None,
            (_, asked) => Some(u64::from(asked)),
        };
        for (ordinal, numbers) in (0..).zip(list) {
            if wanted.is_some_and(|wanted| wanted != numbers[1]) {
                return Err(self.differs(ordinal, "a record of another type"));
            }
            if numbers[5] != outcome {
                return Err(self.differs(ordinal, "another outcome than at the end"));
            }
        }
        Ok(())
    }

    fn differs(&self, ordinal: u64, words: &str) -> Difference {
        Difference(format!(
            "ask: {words}\n  records: {}\n{}, ordinal: {ordinal}\n  compared with {}",
            literal(self.records),
            describe(self.asked),
            self.reading.name
        ))
    }
}

/// The numbers of an answer.
pub fn numbers(answer: &[u8]) -> [u64; 6] {
    [0, 1, 2, 3, 4, 5].map(|place| sys::answer_number(answer, place))
}

fn shown(answer: &Guarded) -> String {
    match answer.inner().len() {
        sys::ASK_ANSWER => format!("{:?}", numbers(answer.inner())),
        length => format!("{length} bytes"),
    }
}

/// A question in words.
pub fn describe(asked: &Asked) -> String {
    format!(
        "  name: {}, type: {}, client: {:?}, moment: {:#x}",
        literal(&asked.name),
        asked.record_type,
        asked.client,
        asked.moment
    )
}
