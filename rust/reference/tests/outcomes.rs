//! Which names are ours, and what is said of those that aren't.

mod examples;
mod support;

use examples::EXAMPLES;
use reference::{meaning, Question};
use support::*;

/// The outcome of a question for an address.
fn outcome(source: &str, name: &str) -> u64 {
    told(source.as_bytes(), name, 1, &[192, 0, 2, 9], NOW).0
}

#[test]
fn worked_examples() {
    for example in EXAMPLES {
        let lines = example.lines.as_bytes();
        let bytes = compiled(lines);
        let records = reference::records(lines, SERIAL).expect("good lines");
        for (name, record_type) in example.questions() {
            let question = Question {
                name: &name,
                record_type,
                client: &example.client,
                moment: example.moment,
            };
            for ordinal in [0, 1, 2, 3, 1 << 32, u64::MAX] {
                let answer = reference::ask(&bytes, &question, ordinal);
                let words = format!("{:?} {question:?}", example.lines);
                assert_eq!(answer.numbers(), example.answer(ordinal), "{words}");
            }
            let told = meaning::told(&records, &question).expect("a good question");
            assert_eq!(agreed(&bytes, &question, &told), example.outcome);
        }
    }
}

#[test]
fn answers_have_six_numbers() {
    let bytes = compiled(b".b\n+h.b:192.0.2.5");
    let mut question = Question {
        name: b"\x01h\x01b\x00",
        record_type: 1,
        client: &[192, 0, 2, 9],
        moment: 1,
    };
    let end = bytes.len() as u64;
    let record = [0, 1, 86_400, end - 4, 4, 3];
    let answer = reference::ask(&bytes, &question, 0);
    let mut slice = [0x55; 48];
    assert_eq!(answer.lay(&mut slice), 0);
    assert_eq!(slice[..], record.map(u64::to_le_bytes).concat());
    for length in [0, 8, 32, 39, 40, 41, 47, 49, 56, 96] {
        let mut slice = vec![0x55; length];
        assert_eq!(answer.lay(&mut slice), 19, "{length}");
        assert!(slice.iter().all(|&byte| byte == 0x55));
    }
    let numbers = |bytes: &[u8], question: &Question<'_>, ordinal| {
        let mut slice = [0x55; 48];
        let answer = reference::ask(bytes, question, ordinal);
        assert_eq!(answer.lay(&mut slice), answer.number);
        answer.numbers()
    };
    assert_eq!(numbers(&bytes, &question, 1), [18, 0, 0, 0, 0, 3]);
    assert_eq!(numbers(b"", &question, 0), [18, 0, 0, 0, 0, 1]);
    assert_eq!(numbers(&bytes[1..], &question, 0), [14, 0, 0, 0, 0, 0]);
    question.client = &[];
    assert_eq!(numbers(&bytes, &question, 0), [17, 0, 0, 0, 0, 0]);
    question.moment = 1 << 63;
    assert_eq!(numbers(&bytes, &question, 0), [16, 0, 0, 0, 0, 0]);
    question.name = b"";
    assert_eq!(numbers(&bytes, &question, 0), [15, 0, 0, 0, 0, 0]);
}

#[test]
fn the_nearest_control_name_decides() {
    let source = ".\n&b::x.y\n.s.b\n+*.b:1.1.1.1\n+h.t.s.b:1.1.1.2\n&t.s.b::x.y";
    for (name, wanted) in [
        ("", 4),
        ("c", 5),
        ("b", 2),
        ("q.b", 2),
        ("s.b", 4),
        ("q.s.b", 5),
        ("t.s.b", 2),
        ("h.t.s.b", 2),
    ] {
        assert_eq!(outcome(source, name), wanted, "{name}");
    }
}

#[test]
fn names_go_by_labels() {
    let long = "a".repeat(33);
    let name = format!("!{long}");
    let source = format!(".{long}\n+{name}:1.1.1.1");
    assert_eq!(wire(&name)[1..], wire(&long));
    assert_eq!(outcome(&source, &name), 1);
    assert_eq!(outcome(&source, &format!("b.{long}")), 5);
    assert_eq!(outcome(&source, &format!("b.{name}")), 1);
}

#[test]
fn names_of_127_labels() {
    let name = vec!["d"; 127].join(".");
    let other = format!("e{}", &name[1..]);
    let host = format!("+{name}:1.1.1.1");
    assert_eq!(outcome(&host, &name), 1);
    assert_eq!(outcome(&format!(".\n{host}"), &name), 3);
    assert_eq!(outcome(&format!("&\n{host}"), &name), 2);
    assert_eq!(outcome(&format!(".\n{host}"), &other), 5);
    assert_eq!(outcome(".\n+*:1.1.1.1", &name), 3);
    // A hostmaster's name would be too long here.
    let zone = |name: &str| format!("Z{name}:m:r\n&{name}::x.y");
    let parent = zone(&name[2..]);
    assert_eq!(outcome(&format!("{parent}\n+*:1.1.1.1"), &name), 5);
    let own = format!("{}\n{host}\n&", zone(&name));
    assert_eq!(outcome(&own, &name), 3);
    assert_eq!(outcome(&own, &other), 2);
}

#[test]
fn stars_have_no_ordinary_records() {
    let source = ".*.b\n+q.b:1.1.1.1\n+*.*.b:1.1.1.2";
    for name in ["*.b", "q.b", "b", "*.*.b"] {
        assert_eq!(outcome(source, name), 1, "{name}");
    }
    let source = format!(".b\n{source}");
    assert_eq!(outcome(&source, "*.b"), 4);
    assert_eq!(outcome(&source, "q.*.b"), 3);
    assert_eq!(outcome(&source, "x.b"), 4);
}

#[test]
fn aliases_are_not_followed() {
    assert_eq!(outcome(".b\nCh.b:x.b\n+x.b:1.1.1.1", "h.b"), 4);
}
