//! Asking: from record bytes and a question to one record of the answer.

use std::iter;

use crate::near::{Near, View};
use crate::outcome::Outcome;
use crate::question::Question;

/// Bytes of an answer's slice: six numbers.
const ANSWER_LENGTH: usize = 48;

/// What asking answers.
#[derive(Clone, Copy, Debug, Default, PartialEq, Eq)]
pub struct AskAnswer {
    /// 0 for a record, 18 for no more, else the refusal's number.
    pub number: u64,
    /// The record's type.
    pub record_type: u64,
    /// Its lifetime in seconds.
    pub lifetime: u64,
    /// Where its data begin.
    pub place: u64,
    /// How many bytes they have.
    pub length: u64,
    /// The outcome's number; 0 for a refusal.
    pub outcome: u64,
}

impl AskAnswer {
    fn refused(number: u64) -> AskAnswer {
        AskAnswer {
            number,
            ..AskAnswer::default()
        }
    }

    fn no_more(outcome: Outcome) -> AskAnswer {
        AskAnswer {
            number: 18,
            outcome: outcome.number(),
            ..AskAnswer::default()
        }
    }

    fn record(near: &Near<'_>, outcome: Outcome) -> AskAnswer {
        AskAnswer {
            number: 0,
            record_type: near.stored.record_type.into(),
            lifetime: near.lifetime.into(),
            place: near.stored.place as u64,
            length: near.stored.length as u64,
            outcome: outcome.number(),
        }
    }

    /// The numbers in the order in which a call lays them down.
    pub fn numbers(&self) -> [u64; 6] {
        [
            self.number,
            self.record_type,
            self.lifetime,
            self.place,
            self.length,
            self.outcome,
        ]
    }

    /// Lays the numbers into a call's slice and returns what the call does:
    /// 19, with nothing written, where the slice has a wrong length.
    pub fn lay(&self, slice: &mut [u8]) -> u64 {
        if slice.len() != ANSWER_LENGTH {
            return 19;
        }
        for (place, number) in slice.chunks_exact_mut(8).zip(self.numbers()) {
            place.copy_from_slice(&number.to_le_bytes());
        }
        self.number
    }
}

/// Answers a question with the record at an ordinal.
pub fn ask(records: &[u8], question: &Question<'_>, ordinal: u64) -> AskAnswer {
    if let Some(number) = question.refusal() {
        return AskAnswer::refused(number);
    }
    let Ok(view) = View::new(records, question) else {
        return AskAnswer::refused(14);
    };
    let held = Held::by(&view);
    let Some(control) = nearest(held.servers) else {
        return pick(iter::empty(), ordinal, Outcome::NotOurs);
    };
    if held.authorities >> control & 1 == 0 {
        let servers = view.near().filter(Near::is_server);
        let servers = servers.filter(|near| near.depth == control);
        return pick(servers, ordinal, Outcome::Referral);
    }
    let level = nearest(held.candidates).filter(|&level| level <= control);
    let Some(level) = level else {
        return pick(iter::empty(), ordinal, Outcome::Unknown);
    };
    let list = view.near().filter(Near::is_candidate);
    let list = list.filter(|near| near.depth == level && question.takes(near.stored.record_type));
    let mut list = list.peekable();
    let outcome = match list.peek() {
        Some(_) => Outcome::Records,
        None => Outcome::OtherTypes,
    };
    pick(list, ordinal, outcome)
}

/// The answer with the record at an ordinal of a list.
fn pick<'a>(mut list: impl Iterator<Item = Near<'a>>, at: u64, outcome: Outcome) -> AskAnswer {
    let place = usize::try_from(at).ok();
    match place.and_then(|place| list.nth(place)) {
        Some(near) => AskAnswer::record(&near, outcome),
        None => AskAnswer::no_more(outcome),
    }
}

/// The depths that have such records, a bit each: a name and its ancestors
/// are at most 128.
#[derive(Default)]
struct Held {
    servers: u128,
    authorities: u128,
    candidates: u128,
}

impl Held {
    fn by(view: &View<'_>) -> Held {
        let mut held = Held::default();
        for near in view.near() {
            let depth = 1 << near.depth;
            if near.is_server() {
                held.servers |= depth;
            }
            if near.is_authority() {
                held.authorities |= depth;
            }
            if near.is_candidate() {
                held.candidates |= depth;
            }
        }
        held
    }
}

/// The least depth of some.
fn nearest(depths: u128) -> Option<u32> {
    (depths != 0).then(|| depths.trailing_zeros())
}
