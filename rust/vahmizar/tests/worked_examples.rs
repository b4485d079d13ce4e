//! Worked examples of asking: the six numbers of each call, by ordinal, and
//! the same through the wrapper.

mod names;

use names::wire;
use vahmizar::{compile_to_vec, sys, Answer, Moment, Question, Records, Reply};

const A: u16 = 1;
const NS: u16 = 2;
const SOA: u16 = 6;
const TXT: u16 = 16;
const ALL: u16 = vahmizar::ALL_TYPES;

/// The time T of the sources.
const T: u64 = 0x4000_0000_38af_1379;
const CLIENT: [u8; 4] = [192, 0, 2, 9];
const INSIDE: [u8; 4] = [192, 168, 7, 7];

/// The numbers behind the first: type, lifetime, place, length.
type Row = [u64; 4];

/// A question, what it ends in, and the records by ordinal.
struct Case {
    name: &'static str,
    record_type: u16,
    client: [u8; 4],
    moment: u64,
    outcome: u64,
    rows: &'static [Row],
}

const fn ask(name: &'static str, record_type: u16, outcome: u64, rows: &'static [Row]) -> Case {
    Case {
        name,
        record_type,
        client: CLIENT,
        moment: 1,
        outcome,
        rows,
    }
}

impl Case {
    const fn at(self, moment: u64) -> Case {
        Case { moment, ..self }
    }

    const fn from(self, client: [u8; 4]) -> Case {
        Case { client, ..self }
    }
}

const Z: &str = ".b:192.0.2.1:a\n&sub.b:192.0.2.2:c\n&sub.b:192.0.2.3:d\n\
    +x.sub.b:192.0.2.4\n+*.b:192.0.2.5\n+*:192.0.2.6\n+h.b:192.0.2.7\n";
const SUB: &[Row] = &[[2, 259200, 167, 12], [2, 259200, 248, 12]];
const WILD: &[Row] = &[[1, 86400, 361, 4]];

const B10: &str = ".w\n+w:192.0.2.234:0:4000000038af1379\n+w:192.0.2.235::4000000038af1379";
const B11: &str = ".a\n+a:192.0.2.1:::in\n+a:192.0.2.2:::ex\n%in:192.168\n%ex";
const B12: &str =
    ".u.heaven.af.mil\n+pink.floyd.u.heaven.af.mil:1.2.3.4\n+*.u.heaven.af.mil:1.2.3.200";

const TABLE: &[(&str, &[Case])] = &[
    (
        Z,
        &[
            ask("h.b", A, 3, &[[1, 86400, 421, 4]]),
            ask("H.B", ALL, 3, &[[1, 86400, 421, 4]]),
            ask("h.b", TXT, 4, &[]),
            ask("q.b", TXT, 4, &[]),
            ask("b", A, 4, &[]),
            ask("q.b", A, 3, WILD),
            ask("ns.b", A, 3, WILD),
            ask("b", NS, 3, &[[2, 259200, 94, 8]]),
            ask("b", ALL, 3, &[[6, 2560, 26, 42], [2, 259200, 94, 8]]),
            ask("sub.b", A, 2, SUB),
            ask("sub.b", NS, 2, SUB),
            ask("sub.b", ALL, 2, SUB),
            ask("x.sub.b", A, 2, SUB),
            ask("c.ns.sub.b", A, 2, SUB),
            ask("c", A, 1, &[]),
            ask("", ALL, 1, &[]),
        ],
    ),
    (".b\n+h.k.b:192.0.2.7", &[ask("k.b", A, 5, &[])]),
    (
        ".b\n&*.b::x.y",
        &[
            ask("q.b", NS, 3, &[[2, 259200, 124, 5]]),
            ask("q.b", A, 4, &[]),
        ],
    ),
    ("&*.b::x.y", &[ask("q.b", NS, 1, &[])]),
    ("Zb:m:r\n+q.b:192.0.2.1", &[ask("b", SOA, 1, &[])]),
    (
        "Zb:m:r\n&b::x.y\n+q.b:192.0.2.1",
        &[ask("q.b", A, 3, &[[1, 86400, 111, 4]])],
    ),
    (
        ".b\n&s.b::x.y::4000000038af1379\n+*.b:192.0.2.5",
        &[
            ask("q.s.b", A, 3, &[[1, 86400, 157, 4]]).at(T - 1),
            ask("q.s.b", A, 2, &[[2, 259200, 126, 5]]).at(T),
        ],
    ),
    (
        ".b\n&s.b::x.y:0:4000000038af1379\n+*.b:192.0.2.5",
        &[ask("q.s.b", A, 2, &[[2, 2, 126, 5]]).at(T - 1)],
    ),
    (
        ".b\n.s.b::i:::in\n&s.b::e:::ex\n%in:192.168\n%ex\n+h.s.b:192.0.2.5",
        &[
            ask("h.s.b", A, 3, &[[1, 86400, 310, 4]]).from([192, 168, 1, 1]),
            ask("h.s.b", A, 2, &[[2, 259200, 244, 10]]),
        ],
    ),
    (
        "Zb:m:r::::::::in\n&b::x.y\n%in:192.168\n+h.b:192.0.2.5",
        &[ask("h.b", A, 2, &[[2, 259200, 80, 5]])],
    ),
    (
        "&:192.0.2.1:a\n+h:192.0.2.5",
        &[ask("h", A, 2, &[[2, 259200, 24, 6]])],
    ),
    (
        ".\n+*:192.0.2.5",
        &[ask("h", A, 3, &[[1, 86400, 112, 4]]), ask("", A, 4, &[])],
    ),
    ("", &[ask("b", A, 1, &[])]),
    (
        B10,
        &[
            ask("w", A, 3, &[[1, 2, 124, 4]]).at(T - 1),
            ask("w", A, 3, &[[1, 86400, 154, 4]]).at(T),
        ],
    ),
    (
        B11,
        &[
            ask("a", A, 3, &[[1, 86400, 126, 4]]).from(INSIDE),
            ask("a", A, 3, &[[1, 86400, 158, 4]]),
        ],
    ),
    (
        B12,
        &[
            ask("sally.floyd.u.heaven.af.mil", A, 3, &[[1, 86400, 263, 4]]),
            ask("pink.floyd.u.heaven.af.mil", A, 3, &[[1, 86400, 219, 4]]),
        ],
    ),
];

#[test]
fn the_sizes_of_the_bench_examples() {
    let sizes = [B10, B11, B12].map(|source| vahmizar::check(source.as_bytes(), 1));
    assert_eq!(sizes, [Ok(158), Ok(188), Ok(267)]);
}

#[test]
fn the_six_numbers_of_each_call() {
    for (source, cases) in TABLE {
        let bytes = compile_to_vec(source.as_bytes(), 1).expect("a good source");
        for case in *cases {
            let words = format!("{source:?}: {} {}", case.name, case.record_type);
            for (ordinal, row) in (0..).zip(case.rows) {
                let [record_type, lifetime, place, length] = *row;
                let six = [0, record_type, lifetime, place, length, case.outcome];
                assert_eq!(numbers(&bytes, case, ordinal), six, "{words}, {ordinal}");
            }
            let behind = case.rows.len() as u64;
            for ordinal in [behind, behind + 1, u64::MAX] {
                let six = [18, 0, 0, 0, 0, case.outcome];
                assert_eq!(numbers(&bytes, case, ordinal), six, "{words}, {ordinal}");
            }
        }
    }
}

#[test]
fn the_same_through_the_wrapper() {
    for (source, cases) in TABLE {
        let bytes = compile_to_vec(source.as_bytes(), 1).expect("a good source");
        let records = Records::new(&bytes);
        for case in *cases {
            let name = wire(case.name);
            let moment = Moment::from_tai64(case.moment);
            let mut question = Question::new(&name, case.record_type, case.client, moment);
            let words = format!("{source:?}: {question:?}");
            let reply = records.ask(&question).expect("good records");
            let zone = records.zone(&question).expect("good records");
            assert_eq!(reply.outcome().number(), case.outcome, "{words}");
            let answers = match reply {
                Reply::Records(answers) => answers,
                Reply::Referral {
                    servers, zone: its, ..
                } => {
                    assert_eq!(zone, Some(its), "{words}");
                    servers
                }
                _ => vec![],
            };
            let rows: Vec<_> = answers.iter().map(|answer| row(&bytes, answer)).collect();
            assert_eq!(rows, case.rows, "{words}");

            // A zone of ours has a SOA record, others haven't.
            assert_eq!(zone.is_none(), case.outcome == 1, "{words}");
            question.name = zone.unwrap_or(&name);
            question.record_type = SOA;
            let authority = records.ask(&question).expect("good records");
            let ours = matches!(authority, Reply::Records(_));
            assert_eq!(ours, case.outcome >= 3, "{words}");
        }
    }
}

fn row(bytes: &[u8], answer: &Answer<'_>) -> Row {
    assert_eq!(answer.data, &bytes[answer.place..][..answer.data.len()]);
    let [place, length] = [answer.place, answer.data.len()].map(|number| number as u64);
    let (record_type, lifetime) = (answer.record_type.into(), answer.lifetime.into());
    [record_type, lifetime, place, length]
}

fn numbers(bytes: &[u8], case: &Case, ordinal: u64) -> [u64; 6] {
    let mut answer = [7; sys::ASK_ANSWER];
    let number = sys::ask(
        bytes,
        &wire(case.name),
        case.record_type,
        &case.client,
        case.moment,
        ordinal,
        &mut answer,
    );
    let numbers = [0, 1, 2, 3, 4, 5].map(|place| sys::answer_number(&answer, place));
    assert_eq!(number, numbers[0]);
    numbers
}
