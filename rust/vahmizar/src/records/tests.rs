//! Tests of asking through the wrapper.

use super::*;
use crate::compile_to_vec;

fn question(name: &[u8]) -> Question<'_> {
    let moment = Moment::from_unix(1_700_000_000);
    Question::new(name, ALL_TYPES, [10, 0, 0, 1], moment)
}

#[test]
fn records_come_in_line_order() {
    let bytes = compile_to_vec(b".b:192.0.2.1:a\n'b:x\n%lo:10\n'b:y:::lo", 7).unwrap();
    let records = Records::new(&bytes);
    let Ok(Reply::Records(answers)) = records.ask(&question(b"\x01B\x00")) else {
        panic!("b has records");
    };
    let types: Vec<_> = answers.iter().map(|answer| answer.record_type).collect();
    assert_eq!(types, [6, 2, 16, 16]);
    assert_eq!(records.ask(&question(b"\x01c\x00")), Ok(Reply::NotOurs));
}

#[test]
fn an_ipv6_client_is_at_the_empty_prefix() {
    let bytes = compile_to_vec(b".b\n%aa:10\n%bb\n't.b:x:::aa\n't.b:yy:::bb", 7).unwrap();
    let ask = |client: IpAddr| {
        let question = Question {
            client,
            ..question(b"\x01t\x01b\x00")
        };
        let told = Records::new(&bytes).ask_nth(&question, 0).unwrap();
        told.answer.unwrap().data.len()
    };
    assert_eq!(ask([10, 9, 9, 9].into()), 2);
    assert_eq!(ask([0x0a00; 8].into()), 3);
}

#[test]
fn refusals() {
    let refused = |bytes: &[u8], question| {
        let records = Records::new(bytes);
        let refusal = records.ask(&question).unwrap_err();
        assert_eq!(records.ask_nth(&question, 7), Err(refusal));
        refusal
    };
    assert_eq!(refused(b"x", question(b"\x00")), AskRefusal::Records);
    assert_eq!(refused(b"x", question(b"")), AskRefusal::Name);
    let late = Question {
        moment: Moment::from_tai64(1 << 63),
        ..question(b"\x00")
    };
    assert_eq!(refused(b"x", late), AskRefusal::Moment);
}

#[test]
fn the_end_of_whole_records() {
    let bytes = compile_to_vec(b"%aa:10\n.b:192.0.2.1:a\n'b:x\n+*.b:192.0.2.2", 7).unwrap();
    let ends: Vec<_> = Walk::new(&bytes)
        .scan(0, |end, record| {
            *end += record.whole.len();
            Some(*end)
        })
        .collect();
    assert_eq!(ends.last(), Some(&bytes.len()));
    for cut in 0..=bytes.len() {
        let records = Records::new(&bytes[..cut]);
        let last = ends.iter().copied().filter(|&end| end <= cut).max();
        assert_eq!(records.valid_up_to(), last.unwrap_or(0), "{cut}");
        assert_eq!(records.check().is_ok(), records.valid_up_to() == cut);
    }
    let mut damaged = bytes.clone();
    // The second record's flag byte; its lengths still fit.
    let flag = ends[0] + 8 + 3 + 2;
    assert_eq!(damaged[flag], b'=');
    damaged[flag] = b'!';
    assert_eq!(Records::new(&damaged).valid_up_to(), ends[0]);
}

#[test]
fn whole_records_end_where_judging_says_so() {
    let bytes = compile_to_vec(b"%aa:10\n+a.b:192.0.2.1:::aa\n'*.b:x", 7).unwrap();
    for place in 0..bytes.len() {
        for change in [1, 0x0a, 0x20, 0x80, 0xff] {
            let mut damaged = bytes.clone();
            damaged[place] ^= change;
            let records = Records::new(&damaged);
            let end = records.valid_up_to();
            assert_eq!(records.check().is_ok(), end == damaged.len());
            assert_eq!(Records::new(&damaged[..end]).check(), Ok(()));
        }
    }
}
