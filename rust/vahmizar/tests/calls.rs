//! Asking, at its edges: answers of another length, refusals, zones.

mod names;

use names::wire;
use vahmizar::{compile_to_vec, sys, Moment, Question, Records, Reply};

const A: u16 = 1;
/// The time of the lines that have one.
const T: u64 = 0x4000_0000_38af_1379;
const CLIENT: [u8; 4] = [192, 0, 2, 9];
const SOURCE: &str = ".b:192.0.2.1:a\n&sub.b:192.0.2.2:c\n+h.b:192.0.2.7\n";

#[test]
fn the_zone_of_a_referral() {
    let zone = |source: &str, name: &str, moment| {
        let bytes = compile_to_vec(source.as_bytes(), 1).expect("a good source");
        let name = wire(name);
        let question = Question::new(&name, A, CLIENT, Moment::from_tai64(moment));
        match Records::new(&bytes).ask(&question) {
            Ok(Reply::Referral { zone, .. }) => zone.to_owned(),
            reply => panic!("{reply:?}"),
        }
    };
    assert_eq!(zone(SOURCE, "X.Sub.B", 1), wire("sub.b"));
    assert_eq!(zone("&:192.0.2.1:a", "h", 1), wire(""));
    let timed = "%ab:10\n.b\n&s.b::x:0:4000000038af1379\n&S.b::y.z::4000000038af1379";
    assert_eq!(zone(timed, "s.b", T), wire("s.b"));
}

#[test]
fn answers_of_another_length_are_refused_and_stay() {
    let bytes = compile_to_vec(SOURCE.as_bytes(), 1).expect("a good source");
    let name = wire("h.b");
    for length in [0, 8, 40, 47, 49, 56, 96] {
        let mut answer = vec![7; length];
        let number = sys::ask(&bytes, &name, A, &CLIENT, 1, 0, &mut answer);
        assert_eq!((number, answer), (19, vec![7; length]), "{length}");
    }
    assert_eq!(sys::ASK_ANSWER, 48);
}

#[test]
fn a_refusal_has_no_outcome() {
    let bytes = compile_to_vec(SOURCE.as_bytes(), 1).expect("a good source");
    let name = wire("h.b");
    let refused = |bytes: &[u8], name: &[u8], client: &[u8], moment| {
        let mut answer = [7; sys::ASK_ANSWER];
        sys::ask(bytes, name, A, client, moment, 0, &mut answer);
        [0, 1, 2, 3, 4, 5].map(|place| sys::answer_number(&answer, place))
    };
    assert_eq!(refused(&bytes[1..], &name, &CLIENT, 1), [14, 0, 0, 0, 0, 0]);
    assert_eq!(refused(&bytes, &name[1..], &CLIENT, 1), [15, 0, 0, 0, 0, 0]);
    assert_eq!(
        refused(&bytes, &name, &CLIENT, 1 << 63),
        [16, 0, 0, 0, 0, 0]
    );
    assert_eq!(refused(&bytes, &name, &CLIENT[1..], 1), [17, 0, 0, 0, 0, 0]);
}
