//! Asking streams of several sizes and shapes.

use std::hint::black_box;

use reference::Question;
use vahmizar::sys;

use crate::inputs;
use crate::timing::{compare, Contender};

/// A moment in 2023, as TAI64.
const MOMENT: u64 = (1 << 62) + 1_700_000_000;
const CLIENT: [u8; 4] = [10, 0, 0, 1];
/// The type of addresses.
const ADDRESS: u16 = 1;

/// Outcomes, by their numbers in an answer.
const NOT_OURS: u64 = 1;
const REFERRAL: u64 = 2;
const RECORDS: u64 = 3;
const UNKNOWN: u64 = 5;

/// A name to be asked for, what it is, and the outcome it must have.
type Row<'a> = (&'a str, Vec<u8>, u64);

/// Prints the tables for asking a stream of so many records.
pub fn tables(count: usize) {
    let last = count - 1;
    let middle = count / 2;
    let many_labels = vec!["d"; 127].join(".");
    rows(
        &format!("{count} records"),
        &inputs::records(count),
        4_000_000 / count,
        &[
            (
                "a name in the middle",
                inputs::name(middle, middle % 50),
                RECORDS,
            ),
            ("the last name", inputs::name(last, last % 50), RECORDS),
            (
                "a wildcard's name",
                inputs::wire("some.dyn.example"),
                RECORDS,
            ),
            (
                "no such name",
                inputs::wire("some.deep.name.nowhere.zone7.example"),
                UNKNOWN,
            ),
            ("a name of 127 labels", inputs::wire(&many_labels), UNKNOWN),
            (
                "a name below a delegation",
                inputs::wire("some.deep.name.far.example"),
                REFERRAL,
            ),
            (
                "a name that isn't ours",
                inputs::wire("some.deep.name.elsewhere"),
                NOT_OURS,
            ),
        ],
    );
}

/// Prints the tables for streams that differ in where zones stand, and for one
/// in which every record has the asked name.
pub fn shapes() {
    let hosts = 20_000;
    let rounds = 200;
    rows(
        "a zone, then 20000 hosts",
        &inputs::one_zone(7, hosts, true),
        rounds,
        &[
            ("the last", inputs::name(hosts - 1, 7), RECORDS),
            ("the tenth", inputs::name(9, 7), RECORDS),
            ("none", inputs::name(hosts, 7), UNKNOWN),
        ],
    );
    rows(
        "20000 hosts, then their zone",
        &inputs::one_zone(7, hosts, false),
        rounds,
        &[("the tenth", inputs::name(9, 7), RECORDS)],
    );
    rows(
        "400 zones of 50 hosts",
        &inputs::zones(400, 50),
        rounds,
        &[
            ("in the middle", inputs::name(25, 200), RECORDS),
            ("the last", inputs::name(49, 399), RECORDS),
            ("no zone", inputs::name(25, 400), NOT_OURS),
        ],
    );
    let bytes = inputs::one_host(7, hosts);
    let name = inputs::name(0, 7);
    for (words, ordinal) in [("the first", 0), ("behind the last", hosts as u64)] {
        let title = title("a zone, then 20000 records of one name", &bytes, words);
        question(&title, &bytes, (&name, ordinal), RECORDS, rounds);
    }
}

fn rows(stream: &str, bytes: &[u8], rounds: usize, rows: &[Row<'_>]) {
    for (words, name, outcome) in rows {
        let title = title(stream, bytes, words);
        question(&title, bytes, (name, 0), *outcome, rounds);
    }
}

fn title(stream: &str, bytes: &[u8], words: &str) -> String {
    format!("ask: {stream}, {} bytes, {words}", bytes.len())
}

/// Prints the table for asking a name at an ordinal.
fn question(title: &str, bytes: &[u8], (name, ordinal): (&[u8], u64), outcome: u64, rounds: usize) {
    assert_eq!(ask(bytes, name, ordinal), outcome, "{title}");
    let second = Question {
        name,
        record_type: ADDRESS,
        client: &CLIENT,
        moment: MOMENT,
    };
    let contenders = vec![
        Contender::new("library", || {
            black_box(ask(bytes, black_box(name), ordinal));
        }),
        Contender::new("reference", || {
            black_box(reference::ask(bytes, black_box(&second), ordinal));
        }),
        Contender::new("plain walk", || {
            black_box(walk(bytes, black_box(name), |_| true));
        }),
        Contender::new("walk that judges keys", || {
            black_box(walk(bytes, black_box(name), is_key));
        }),
    ];
    compare(title, rounds, contenders);
}

/// Asks the library for the record at an ordinal. Gives the outcome.
fn ask(bytes: &[u8], name: &[u8], ordinal: u64) -> u64 {
    let mut answer = [0; sys::ASK_ANSWER];
    sys::ask(bytes, name, ADDRESS, &CLIENT, MOMENT, ordinal, &mut answer);
    sys::answer_number(&answer, 5)
}

/// The least that any reader does: lengths read, keys compared. Gives the
/// number of records with the key, among those whose key is taken.
fn walk(bytes: &[u8], key: &[u8], taken: impl Fn(&[u8]) -> bool) -> usize {
    let mut found = 0;
    let mut at = 0;
    while at + 8 <= bytes.len() {
        let length = |place: usize| {
            let bytes = bytes[place..place + 4].try_into().expect("four bytes");
            u32::from_le_bytes(bytes) as usize
        };
        let key_end = at + 8 + length(at);
        let end = key_end + length(at + 4);
        let its_key = &bytes[at + 8..key_end];
        if taken(its_key) && its_key == key {
            found += 1;
        }
        at = end;
    }
    found
}

/// Judges a key as every reader must: whole labels, no upper case.
fn is_key(key: &[u8]) -> bool {
    let mut at = 0;
    while let Some(&length) = key.get(at) {
        if length == 0 {
            return at + 1 == key.len();
        }
        let end = at + 1 + usize::from(length);
        match key.get(at + 1..end) {
            Some(label) if length < 64 && !label.iter().any(u8::is_ascii_uppercase) => at = end,
            _ => return false,
        }
    }
    false
}
