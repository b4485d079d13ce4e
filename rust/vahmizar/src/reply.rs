//! What asking says.

use std::fmt;

/// Which of five ways a question ends.
#[derive(Clone, Copy, Debug, PartialEq, Eq, Hash)]
#[non_exhaustive]
#[repr(u64)]
pub enum Outcome {
    /// The name lies in no zone of the records.
    NotOurs = 1,
    /// The name lies in a zone that is handed on to other name servers.
    Referral = 2,
    /// There are records to answer with.
    Records = 3,
    /// The name has records, but none of the asked type.
    NoSuchType = 4,
    /// The name lies in a zone of the records, but has none.
    NoSuchName = 5,
}

impl Outcome {
    const ALL: [Outcome; 5] = [
        Outcome::NotOurs,
        Outcome::Referral,
        Outcome::Records,
        Outcome::NoSuchType,
        Outcome::NoSuchName,
    ];

    pub(crate) fn from_number(number: u64) -> Option<Outcome> {
        Outcome::ALL
            .into_iter()
            .find(|outcome| outcome.number() == number)
    }

    /// The number by which the library names the outcome.
    pub fn number(self) -> u64 {
        self as u64
    }

    /// The outcome in plain words.
    pub fn words(self) -> &'static str {
        match self {
            Outcome::NotOurs => "not ours",
            Outcome::Referral => "referral",
            Outcome::Records => "records",
            Outcome::NoSuchType => "no such type",
            Outcome::NoSuchName => "no such name",
        }
    }
}

impl fmt::Display for Outcome {
    fn fmt(&self, f: &mut fmt::Formatter<'_>) -> fmt::Result {
        f.write_str(self.words())
    }
}

/// One record of the reply to a question.
#[derive(Clone, Copy, Debug, PartialEq, Eq, Hash)]
#[non_exhaustive]
pub struct Answer<'a> {
    /// The record type.
    pub record_type: u16,
    /// For how many seconds the record may be kept.
    pub lifetime: u32,
    /// Where the record data begin in the compiled bytes, from 0.
    pub place: usize,
    /// The record data.
    pub data: &'a [u8],
}

/// What a single call of the library says; see
/// [`Records::ask_nth`](crate::Records::ask_nth).
#[derive(Clone, Copy, Debug, PartialEq, Eq, Hash)]
#[non_exhaustive]
pub struct Told<'a> {
    /// The outcome of the question, the same at every ordinal.
    pub outcome: Outcome,
    /// The record at the ordinal; `None` where there are no more.
    pub answer: Option<Answer<'a>>,
}

/// The reply to a question: its outcome, with the records that belong to it.
///
/// A CNAME record is a record as any other. A name that has nothing else gives
/// [`Reply::NoSuchType`] for type A; a server that follows CNAMEs asks for type
/// 5 then. [`Records::zone`](crate::Records::zone) finds the zone whose SOA
/// record goes with a negative answer.
#[derive(Clone, Debug, PartialEq, Eq, Hash)]
#[non_exhaustive]
pub enum Reply<'a> {
    /// The name lies in no zone of the records. A server answers REFUSED or
    /// not at all.
    NotOurs,
    /// The name lies in a zone that is handed on to other name servers. A
    /// server answers NOERROR with the AA bit off, no answers, and these
    /// records in the authority section.
    #[non_exhaustive]
    Referral {
        /// The zone's name on the wire, in lower case: the owner of these
        /// records.
        zone: &'a [u8],
        /// The zone's NS records, in line order; at least one.
        servers: Vec<Answer<'a>>,
    },
    /// Records of the asked type, in line order; at least one. A server
    /// answers NOERROR with the AA bit on and these records, which the asked
    /// name owns.
    Records(Vec<Answer<'a>>),
    /// The name has records, but none of the asked type. A server answers
    /// NOERROR with the AA bit on and no answers (NODATA).
    NoSuchType,
    /// The name lies in a zone of the records, but has none, though names
    /// below it may have some. A server answers NXDOMAIN with the AA bit on.
    NoSuchName,
}

impl Reply<'_> {
    /// The outcome alone.
    pub fn outcome(&self) -> Outcome {
        match self {
            Reply::NotOurs => Outcome::NotOurs,
            Reply::Referral { .. } => Outcome::Referral,
            Reply::Records(_) => Outcome::Records,
            Reply::NoSuchType => Outcome::NoSuchType,
            Reply::NoSuchName => Outcome::NoSuchName,
        }
    }
}

#[cfg(test)]
mod tests {
    use super::*;

    #[test]
    fn numbers_lead_back() {
        for (number, outcome) in (1..).zip(Outcome::ALL) {
            assert_eq!(outcome.number(), number);
            assert_eq!(Outcome::from_number(number), Some(outcome));
        }
        assert_eq!(Outcome::from_number(0), None);
        assert_eq!(Outcome::from_number(6), None);
        let words = Outcome::ALL.map(|outcome| outcome.to_string()).join(", ");
        assert_eq!(
            words,
            "not ours, referral, records, no such type, no such name"
        );
    }
}
