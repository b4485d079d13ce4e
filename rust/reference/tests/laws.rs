//! What holds of outcome and list, on every choice of some lines.

mod support;

use reference::meaning::{self, Given};
use reference::record::{Record, Resource};
use reference::Question;
use support::*;

/// The client is at no location, so what has one is hidden.
const LINES: [&str; 12] = [
    ".b",
    "&b::x.y",
    "Zb:m:r",
    "&s.b::x.y",
    "Zs.b:m:r",
    "&*.b::x.y",
    "+*.b:192.0.2.1",
    "+*:192.0.2.2",
    "+h.s.b:192.0.2.3",
    "'*.s.b:x",
    "&::x.y",
    "&h.s.b::x.y:::in",
];
const NAMES: [&str; 7] = ["", "b", "c", "s.b", "q.b", "h.s.b", "q.h.s.b"];
const TYPES: [u16; 5] = [1, 2, 6, 16, 255];

#[test]
fn outcome_and_list_belong_together() {
    let mut seen = [0; 6];
    for choice in 0..1 << LINES.len() {
        let chosen = LINES.iter().enumerate();
        let chosen = chosen.filter(|(place, _)| choice >> place & 1 == 1);
        let lines: Vec<_> = chosen.map(|(_, &line)| line).collect();
        let source = lines.join("\n");
        let records = reference::records(source.as_bytes(), SERIAL).expect("good lines");
        let bytes = compiled(source.as_bytes());
        for name in NAMES {
            for record_type in TYPES {
                let question = Question {
                    name: &wire(name),
                    record_type,
                    client: &[192, 0, 2, 9],
                    moment: NOW,
                };
                let told = meaning::told(&records, &question).expect("a good question");
                let outcome = told.outcome.number();
                assert_eq!(agreed(&bytes, &question, &told), outcome);
                hold(&records, &question, outcome, &told.list);
                seen[outcome as usize] += 1;
            }
        }
    }
    assert!(seen[1..].iter().all(|&count| count > 1_000), "{seen:?}");
}

fn hold(records: &[Record], question: &Question<'_>, outcome: u64, list: &[Given]) {
    assert_eq!(list.is_empty(), !matches!(outcome, 2 | 3));
    let of_type = |given: &Given, asked: u16| asked == 255 || given.record_type == asked;
    match outcome {
        2 => assert!(list.iter().all(|given| of_type(given, 2))),
        3 => assert!(list
            .iter()
            .all(|given| of_type(given, question.record_type))),
        _ => (),
    }
    // The list of the rules without a control name, and whose it is.
    let climbed = climb(records, question);
    match outcome {
        3 => {
            let (_, climbed) = climbed.expect("a list");
            let list: Vec<_> = list
                .iter()
                .map(|given| (given.record_type, &given.data))
                .collect();
            assert_eq!(list, climbed);
        }
        4 | 5 => {
            let above = climbed.is_none_or(|(owner, list)| {
                list.is_empty() || owner.len() < control(records, question.name).len()
            });
            assert!(above);
        }
        _ => (),
    }
}

/// What the client sees.
fn resources(records: &[Record]) -> impl Iterator<Item = &Resource> {
    records.iter().filter_map(|record| match record {
        Record::Resource(resource) if resource.lo.is_none() => Some(resource),
        _ => None,
    })
}

/// The name and its ancestors, on the wire.
fn chain(name: &[u8]) -> Vec<&[u8]> {
    let mut chain = vec![name];
    let mut rest = name;
    while rest[0] != 0 {
        rest = &rest[1 + usize::from(rest[0])..];
        chain.push(rest);
    }
    chain
}

/// The nearest name with a name server.
fn control<'a>(records: &[Record], name: &'a [u8]) -> &'a [u8] {
    let serves = |name: &&[u8]| {
        resources(records).any(|record| record.record_type == 2 && record.owner.wire() == *name)
    };
    chain(name)
        .into_iter()
        .find(serves)
        .expect("a control name")
}

/// Types and data of records.
type Listed<'a> = Vec<(u16, &'a Vec<u8>)>;

/// The level that a climb up to the root finds, and its records of the type.
fn climb<'a>(records: &'a [Record], question: &Question<'a>) -> Option<(&'a [u8], Listed<'a>)> {
    for owner in chain(question.name) {
        let level: Vec<_> = resources(records)
            .filter(|record| match owner == question.name {
                true => record.owner.wire() == owner,
                false => record.owner.behind_star() == Some(owner),
            })
            .collect();
        if !level.is_empty() {
            let level = level.into_iter();
            let list = level.filter(|record| question.takes(record.record_type));
            let list = list.map(|record| (record.record_type, &record.data));
            return Some((owner, list.collect()));
        }
    }
    None
}
