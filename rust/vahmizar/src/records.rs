//! Asking compiled records.

use std::net::IpAddr;

use crate::moment::Moment;
use crate::question::{Question, ALL_TYPES};
use crate::refusal::AskRefusal;
use crate::reply::{Answer, Outcome, Reply, Told};
use crate::sys;
use crate::walk::Walk;

/// The number of an answer that has no record at the ordinal.
const NO_MORE: u64 = 18;

/// Compiled records, lent from whoever holds the bytes.
#[derive(Clone, Copy, Debug)]
pub struct Records<'a> {
    bytes: &'a [u8],
}

impl<'a> Records<'a> {
    /// Takes compiled bytes. They are judged when they are asked, each time
    /// and as a whole; [`Records::check`] judges them alone.
    pub fn new(bytes: &'a [u8]) -> Records<'a> {
        Records { bytes }
    }

    /// The compiled bytes.
    pub fn bytes(&self) -> &'a [u8] {
        self.bytes
    }

    /// Says whether the bytes are whole records.
    ///
    /// ```
    /// use vahmizar::{AskRefusal, Records};
    ///
    /// assert_eq!(Records::new(b"").check(), Ok(()));
    /// assert_eq!(Records::new(b"data").check(), Err(AskRefusal::Records));
    /// ```
    pub fn check(&self) -> Result<(), AskRefusal> {
        let question = Question::new(b"\0", ALL_TYPES, [0; 4], Moment::from_tai64(0));
        self.ask_nth(&question, 0).map(drop)
    }

    /// Where the bytes stop being whole records: the start of the first one
    /// that isn't, or their length if all are.
    ///
    /// ```
    /// use vahmizar::{compile_to_vec, Records};
    ///
    /// let bytes = compile_to_vec(b"+a.b:192.0.2.1\n+a.b:192.0.2.2", 1)?;
    /// assert_eq!(Records::new(&bytes).valid_up_to(), 64);
    /// assert_eq!(Records::new(&bytes[..63]).valid_up_to(), 32);
    /// # Ok::<(), vahmizar::Refusal>(())
    /// ```
    pub fn valid_up_to(&self) -> usize {
        Walk::new(self.bytes)
            .map(|record| record.whole)
            .take_while(|record| Records::new(record).check().is_ok())
            .map(<[u8]>::len)
            .sum()
    }

    /// The reply to a question.
    ///
    /// A reply of n records takes n + 1 calls of the library, each of which
    /// judges the whole bytes anew.
    ///
    /// ```
    /// use vahmizar::{compile_to_vec, Moment, Question, Records, Reply};
    ///
    /// let source = b".b:192.0.2.1:a\n@b:192.0.2.2:m:10\n&c.b:192.0.2.3:d\n";
    /// let bytes = compile_to_vec(source, 1)?;
    /// let records = Records::new(&bytes);
    /// let ask = |name, record_type| {
    ///     let client = [192, 0, 2, 9];
    ///     records.ask(&Question::new(name, record_type, client, Moment::now()))
    /// };
    ///
    /// let Reply::Records(mail) = ask(b"\x01b\x00", 15)? else {
    ///     panic!("b has an MX record");
    /// };
    /// assert_eq!(mail[0].data, b"\x00\x0a\x01m\x02mx\x01b\x00");
    /// assert_eq!(mail[0].lifetime, 86400);
    ///
    /// let Reply::Referral { zone, servers, .. } = ask(b"\x01x\x01c\x01b\x00", 1)? else {
    ///     panic!("c.b is handed on");
    /// };
    /// assert_eq!(zone, b"\x01c\x01b\x00");
    /// assert_eq!(servers[0].data, b"\x01d\x02ns\x01c\x01b\x00");
    ///
    /// assert_eq!(ask(b"\x01b\x00", 16)?, Reply::NoSuchType);
    /// assert_eq!(ask(b"\x01x\x01b\x00", 1)?, Reply::NoSuchName);
    /// assert_eq!(ask(b"\x01z\x00", 1)?, Reply::NotOurs);
    /// # Ok::<(), Box<dyn std::error::Error>>(())
    /// ```
    pub fn ask(&self, question: &Question<'_>) -> Result<Reply<'a>, AskRefusal> {
        let mut answers = Vec::new();
        let outcome = loop {
            let told = self.ask_nth(question, answers.len() as u64)?;
            match told.answer {
                Some(answer) => answers.push(answer),
                None => break told.outcome,
            }
        };
        Ok(match outcome {
            Outcome::NotOurs => Reply::NotOurs,
            Outcome::Referral => Reply::Referral {
                zone: answers.first().map_or(&[], |first| self.key_of(first)),
                servers: answers,
            },
            Outcome::Records => Reply::Records(answers),
            Outcome::NoSuchType => Reply::NoSuchType,
            Outcome::NoSuchName => Reply::NoSuchName,
        })
    }

    /// One call of the library: the outcome of a question, and the record at
    /// an ordinal, from 0, of its reply.
    ///
    /// ```
    /// use vahmizar::{compile_to_vec, Moment, Outcome, Question, Records};
    ///
    /// let bytes = compile_to_vec(b".b\n+a.b:192.0.2.1", 1)?;
    /// let records = Records::new(&bytes);
    /// let question = Question::new(b"\x01a\x01b\x00", 1, [192, 0, 2, 9], Moment::now());
    /// let first = records.ask_nth(&question, 0)?;
    /// assert_eq!(first.outcome, Outcome::Records);
    /// assert_eq!(first.answer.map(|answer| answer.data), Some(&[192, 0, 2, 1][..]));
    /// let second = records.ask_nth(&question, 1)?;
    /// assert_eq!((second.outcome, second.answer), (Outcome::Records, None));
    /// # Ok::<(), Box<dyn std::error::Error>>(())
    /// ```
    pub fn ask_nth(&self, question: &Question<'_>, ordinal: u64) -> Result<Told<'a>, AskRefusal> {
        let mut answer = [0; sys::ASK_ANSWER];
        let ask = |client: &[u8], answer: &mut [u8]| {
            sys::ask(
                self.bytes,
                question.name,
                question.record_type,
                client,
                question.moment.tai64(),
                ordinal,
                answer,
            )
        };
        let number = match question.client {
            IpAddr::V4(address) => ask(&address.octets(), &mut answer),
            IpAddr::V6(address) => ask(&address.octets(), &mut answer),
        };
        if let Some(refusal) = AskRefusal::from_number(number) {
            return Err(refusal);
        }
        let outcome = sys::answer_number(&answer, 5);
        match (number, Outcome::from_number(outcome)) {
            (0 | NO_MORE, Some(outcome)) => Ok(Told {
                outcome,
                answer: (number == 0).then(|| self.answer(&answer)),
            }),
            _ => panic!("asking answered {number} and {outcome}, which its promise excludes"),
        }
    }

    fn answer(&self, numbers: &[u8]) -> Answer<'a> {
        // The library promises that all four fit: a type has 16 bits, a
        // lifetime 31, and the data lie within the bytes.
        let number = |place| sys::answer_number(numbers, place);
        let place = number(3) as usize;
        Answer {
            record_type: number(1) as u16,
            lifetime: number(2) as u32,
            place,
            data: &self.bytes[place..][..number(4) as usize],
        }
    }
}

#[cfg(test)]
mod tests;
