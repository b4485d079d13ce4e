//! The records that a question can depend on.

mod support;

use reference::index::relevant;
use reference::Question;
use support::*;

/// Holds what is kept for a name to the lines with these numbers.
fn keeps(lines: &[&str], name: &str, kept: &[usize]) {
    let all = compiled(lines.join("\n").as_bytes());
    let kept: Vec<_> = kept.iter().map(|&line| lines[line]).collect();
    let wanted = compiled(kept.join("\n").as_bytes());
    assert_eq!(relevant(&all, &wire(name)), Some(wanted), "{name}");
}

const LINES: [&str; 13] = [
    "+h.s.b:192.0.2.1",
    "%to:10",
    "'b:of an ancestor",
    "'*.b:of an ancestor's wildcard",
    "'*.h.s.b:of the name's own wildcard",
    "'q.h.s.b:below",
    "'c:elsewhere",
    "'*:of the root's wildcard",
    "':of the root",
    "'xs.b:ends alike",
    "'h.s.b:again:::vi",
    "%vi",
    "'*.c:elsewhere",
];

#[test]
fn owners_decide() {
    keeps(&LINES, "h.s.b", &[0, 1, 2, 3, 7, 8, 10, 11]);
    keeps(&LINES, "H.S.B", &[0, 1, 2, 3, 7, 8, 10, 11]);
    keeps(&LINES, "q.h.s.b", &[0, 1, 2, 3, 4, 5, 7, 8, 10, 11]);
    keeps(&LINES, "s.b", &[1, 2, 3, 7, 8, 11]);
    keeps(&LINES, "b", &[1, 2, 7, 8, 11]);
    keeps(&LINES, "", &[1, 8, 11]);
    keeps(&LINES, "x.c", &[1, 6, 7, 8, 11, 12]);
    keeps(&["%to", "%vi:10"], "a", &[0, 1]);
    keeps(&[], "a", &[]);
}

#[test]
fn a_star_in_the_asked_name_is_a_label() {
    let lines = ["'*.b:w", "'*.*.b:w w", "'b:o", "'*.*.*.b:w w w"];
    keeps(&lines, "*.b", &[0, 2]);
    keeps(&lines, "*.*.b", &[0, 1, 2]);
    keeps(&lines, "a.*.b", &[0, 1, 2]);
    keeps(&lines, "a.b", &[0, 2]);
}

#[test]
fn bytes_that_are_not_whole_records_have_no_index() {
    let records = compiled(b"+a:192.0.2.1\n+b:192.0.2.1");
    for length in 1..records.len() {
        let whole = length == records.len() / 2;
        let index = relevant(&records[..length], &wire("a"));
        assert_eq!(index.is_some(), whole, "{length}");
    }
    for name in [&b""[..], b"\x01a", b"\x01a\0\0", b"\x40"] {
        assert_eq!(relevant(&records, name), None);
    }
}

/// Lines whose records are asked for with and without the others.
const CROWD: [&str; 10] = [
    ".b",
    "+h.s.b:192.0.2.1",
    "&s.b::x.y:::to",
    "%to:10",
    "+*.s.b:192.0.2.2",
    "&c::x.y",
    "+*:192.0.2.3",
    "%vi:10",
    ".",
    "&q.h.s.b::x.y",
];

#[test]
fn the_kept_records_answer_the_same() {
    let asked = ["", "b", "c", "s.b", "h.s.b", "q.s.b", "q.h.s.b", "h.c"];
    for choice in 0..1usize << CROWD.len() {
        let lines = CROWD.iter().enumerate();
        let lines = lines.filter(|(place, _)| choice >> place & 1 == 1);
        let lines: Vec<_> = lines.map(|(_, line)| *line).collect();
        let all = compiled(lines.join("\n").as_bytes());
        for name in asked.map(wire) {
            let question = Question {
                name: &name,
                record_type: 255,
                client: &[10, 1, 2, 3],
                moment: NOW,
            };
            let kept = relevant(&all, &name).expect("whole records");
            assert_eq!(answers(&kept, &question), answers(&all, &question));
        }
    }
}

/// The answers at every ordinal up to the end, data for their place.
fn answers(records: &[u8], question: &Question<'_>) -> Vec<([u64; 4], Vec<u8>)> {
    let mut answers = Vec::new();
    loop {
        let answer = reference::ask(records, question, answers.len() as u64);
        let [number, record_type, lifetime, place, length, outcome] = answer.numbers();
        let data = &records[place as usize..][..length as usize];
        answers.push(([number, record_type, lifetime, outcome], data.to_vec()));
        if number != 0 {
            return answers;
        }
    }
}
