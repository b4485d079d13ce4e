//! Short ways to compile and ask, for the tests. Every question is put both
//! to the bytes and to the lines; the two must agree.

#![allow(dead_code, missing_docs)]

use reference::meaning::{self, Given, Told};
use reference::stream::Stream;
use reference::Question;

/// The serial of all tests.
pub const SERIAL: u32 = 1_234_567_890;
/// A moment for tests where time doesn't count.
pub const NOW: u64 = (1 << 62) + 1_700_000_000;

/// Type, lifetime and data of a record handed out.
pub type Handed = (u16, u32, Vec<u8>);

pub fn answer(source: &[u8], room: usize) -> [u64; 4] {
    reference::compile(source, SERIAL, &mut vec![0; room]).numbers()
}

pub fn compiled(source: &[u8]) -> Vec<u8> {
    let [_, _, _, needed] = answer(source, 0);
    let mut out = vec![0; needed as usize];
    let answer = reference::compile(source, SERIAL, &mut out);
    assert_eq!(answer.numbers(), [0, 0, 0, needed]);
    out
}

/// Number, line and field of a refusal.
pub fn refused(source: &[u8]) -> (u64, u64, u64) {
    let mut out = vec![0x55; 4096];
    let [number, line, field, bytes] = reference::compile(source, SERIAL, &mut out).numbers();
    assert_ne!(number, 0, "accepted");
    assert_eq!(bytes, 0);
    assert!(out.iter().all(|&byte| byte == 0x55));
    (number, line, field)
}

pub fn good(source: &[u8]) -> bool {
    matches!(answer(source, 0)[0], 0 | 13)
}

/// How many records a source has.
pub fn count(source: &[u8]) -> usize {
    let bytes = compiled(source);
    Stream::new(&bytes)
        .inspect(|entry| assert!(entry.is_ok()))
        .count()
}

/// A name on the wire; `\` stands for no escape here.
pub fn wire(name: &str) -> Vec<u8> {
    let mut wire = Vec::new();
    for label in name.split('.').filter(|label| !label.is_empty()) {
        wire.push(label.len() as u8);
        wire.extend_from_slice(label.as_bytes());
    }
    wire.push(0);
    wire
}

/// All records of a name, in a zone of ours.
pub fn asked(source: &[u8], name: &str) -> Vec<Handed> {
    asked_as(source, name, 255, &[127, 0, 0, 1], NOW)
}

/// The records that answer where the root's zone is ours: its line is put in
/// front of the source.
pub fn asked_as(
    source: &[u8],
    name: &str,
    record_type: u16,
    client: &[u8],
    moment: u64,
) -> Vec<Handed> {
    let ours = [b".\n", source].concat();
    told(&ours, name, record_type, client, moment).1
}

/// Outcome and records of a question, as both the bytes and the lines say.
pub fn told(
    source: &[u8],
    name: &str,
    record_type: u16,
    client: &[u8],
    moment: u64,
) -> (u64, Vec<Handed>) {
    let question = Question {
        name: &wire(name),
        record_type,
        client,
        moment,
    };
    let records = reference::records(source, SERIAL).expect("good lines");
    let told = meaning::told(&records, &question).expect("a good question");
    let outcome = agreed(&compiled(source), &question, &told);
    let handed = |given: Given| (given.record_type, given.lifetime, given.data);
    (outcome, told.list.into_iter().map(handed).collect())
}

/// Holds the bytes to what the lines say, at every ordinal.
pub fn agreed(bytes: &[u8], question: &Question<'_>, told: &Told) -> u64 {
    let outcome = told.outcome.number();
    for (ordinal, given) in told.list.iter().enumerate() {
        let answer = reference::ask(bytes, question, ordinal as u64);
        let [number, record_type, lifetime, place, length, its_outcome] = answer.numbers();
        assert_eq!((number, its_outcome), (0, outcome));
        assert_eq!(record_type, u64::from(given.record_type));
        assert_eq!(lifetime, u64::from(given.lifetime));
        assert_eq!(place + length, given.end);
        assert_eq!(bytes[place as usize..][..length as usize], given.data);
    }
    for past in [told.list.len() as u64, 1 << 32, u64::MAX] {
        let answer = reference::ask(bytes, question, past);
        assert_eq!(answer.numbers(), [18, 0, 0, 0, 0, outcome]);
    }
    outcome
}
