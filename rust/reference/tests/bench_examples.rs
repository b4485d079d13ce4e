//! The bench examples B1 to B12.

mod support;

use reference::Question;
use support::*;

#[test]
fn b1_empty_source() {
    assert_eq!(answer(b"", 0), [0, 0, 0, 0]);
}

const B2: &[u8] = b"+a.b:192.0.2.1";
const B2_BYTES: [u8; 32] = [
    5, 0, 0, 0, 0x13, 0, 0, 0, 1, 0x61, 1, 0x62, 0, 0, 1, 0x3d, 0, 1, 0x51, 0x80, 0, 0, 0, 0, 0, 0,
    0, 0, 0xc0, 0, 2, 1,
];

#[test]
fn b2_one_record() {
    assert_eq!(compiled(B2), B2_BYTES);
}

#[test]
fn b3_a_byte_too_little() {
    let mut out = [0xaa; 31];
    let answer = reference::compile(B2, 0, &mut out);
    assert_eq!(answer.numbers(), [13, 0, 0, 32]);
    assert_eq!(out, [0xaa; 31]);
}

#[test]
fn b4_host() {
    let source = b"=button.panic.mil:1.8.7.108";
    let address = (1, 86_400, vec![1, 8, 7, 108]);
    assert_eq!(asked(source, "button.panic.mil"), [address]);
    let pointer = (12, 86_400, wire("button.panic.mil"));
    assert_eq!(asked(source, "108.7.8.1.in-addr.arpa"), [pointer]);
    assert_eq!(count(source), 2);
}

#[test]
fn b5_name_server_elsewhere() {
    let source = b".panic.mil::a.ns.heaven.af.mil";
    let numbers = [SERIAL, 16_384, 2_048, 1_048_576, 2_560].map(u32::to_be_bytes);
    let server = wire("a.ns.heaven.af.mil");
    let contact = wire("hostmaster.panic.mil");
    let soa = [server.clone(), contact, numbers.concat()].concat();
    let expected = [(6, 2_560, soa), (2, 259_200, server)];
    assert_eq!(asked(source, "panic.mil"), expected);
    assert_eq!(count(source), 2);
}

#[test]
fn b6_mail_exchanger() {
    let source = b"@heaven.af.mil:1.2.3.4";
    let data = [vec![0, 0], wire("mx.heaven.af.mil")].concat();
    assert_eq!(asked(source, "heaven.af.mil"), [(15, 86_400, data)]);
    let address = (1, 86_400, vec![1, 2, 3, 4]);
    assert_eq!(asked(source, "mx.heaven.af.mil"), [address]);
}

#[test]
fn b7_service() {
    let source = b"S_sip._udp.slocombe.example:203.0.113.88:a:5060:10:20";
    let numbers = vec![0, 0x0a, 0, 0x14, 0x13, 0xc4];
    let server = "a.srv._sip._udp.slocombe.example";
    let data = [numbers, wire(server)].concat();
    let expected = [(33, 86_400, data)];
    assert_eq!(asked(source, "_sip._udp.slocombe.example"), expected);
    assert_eq!(asked(source, server), [(1, 86_400, vec![203, 0, 113, 88])]);
}

#[test]
fn b8_bad_octet() {
    assert_eq!(refused(b"+a:1.2.3.256"), (6, 1, 2));
}

#[test]
fn b9_first_bad_line() {
    let source = b"+a:1.2.3.4\n!\n+b:1.2.3.4\n!";
    assert_eq!(refused(source), (3, 2, 0));
}

/// What a question for addresses is answered at the first two ordinals.
fn answers(source: &[u8], bytes: usize, name: &str, client: &[u8], moment: u64) -> [[u64; 6]; 2] {
    let compiled = compiled(source);
    assert_eq!(compiled.len(), bytes);
    told(source, name, 1, client, moment);
    let question = Question {
        name: &wire(name),
        record_type: 1,
        client,
        moment,
    };
    [0, 1].map(|ordinal| reference::ask(&compiled, &question, ordinal).numbers())
}

const NO_MORE: [u64; 6] = [18, 0, 0, 0, 0, 3];

#[test]
fn b10_switch_at_a_second() {
    let source = b".w\n+w:192.0.2.234:0:4000000038af1379\n+w:192.0.2.235::4000000038af1379";
    let time = 0x4000_0000_38af_1379;
    let at = |moment| answers(source, 158, "w", &[1, 2, 3, 4], moment);
    assert_eq!(at(time - 1), [[0, 1, 2, 124, 4, 3], NO_MORE]);
    assert_eq!(at(time), [[0, 1, 86_400, 154, 4, 3], NO_MORE]);
}

#[test]
fn b11_longest_prefix_wherever_it_stands() {
    let source = b".a\n+a:192.0.2.1:::in\n+a:192.0.2.2:::ex\n%in:192.168\n%ex";
    let from = |client| answers(source, 188, "a", client, NOW);
    let inside = [0, 1, 86_400, 126, 4, 3];
    assert_eq!(from(&[192, 168, 7, 7]), [inside, NO_MORE]);
    let outside = [0, 1, 86_400, 158, 4, 3];
    assert_eq!(from(&[192, 0, 2, 9]), [outside, NO_MORE]);
}

#[test]
fn b12_wildcard_and_deeper_name() {
    let source = b".u.heaven.af.mil\n+pink.floyd.u.heaven.af.mil:1.2.3.4
+*.u.heaven.af.mil:1.2.3.200";
    let ask = |name: &str| {
        let name = format!("{name}u.heaven.af.mil");
        answers(source, 267, &name, &[1, 2, 3, 4], NOW)
    };
    let wildcard = [0, 1, 86_400, 263, 4, 3];
    for name in [
        "joe.",
        "floyd.",
        "joe.bob.",
        "sally.floyd.",
        "post.pink.floyd.",
    ] {
        assert_eq!(ask(name), [wildcard, NO_MORE], "{name}");
    }
    let own = [0, 1, 86_400, 219, 4, 3];
    assert_eq!(ask("pink.floyd."), [own, NO_MORE]);
    assert_eq!(ask(""), [[18, 0, 0, 0, 0, 4]; 2]);
}

#[test]
fn typical_file_of_the_old_manual() {
    let source = include_bytes!("../../../crates/boundaries/data/typical");
    let bytes = typical_records();
    let mut out = vec![0; bytes.len()];
    let answer = reference::compile(source, 1_000, &mut out);
    assert_eq!(answer.numbers(), [0, 0, 0, bytes.len() as u64]);
    assert_eq!(out, bytes);
    assert_eq!(count(source), 26);
    assert_eq!(asked(source, "heaven.af.mil").len(), 5);
}

/// What tinydns-data 1.05 writes for the typical file with serial 1000: the
/// last word, in hexadecimal digits, of a line that `boundaries` must print.
fn typical_records() -> Vec<u8> {
    let printed = include_str!("../../../crates/boundaries/stdout");
    let line = printed.lines().find(|line| line.starts_with("typical "));
    let digits = line.and_then(|line| line.split(' ').next_back());
    let digits = digits.expect("a line for the typical file").as_bytes();
    let byte = |pair: &[u8]| u8::from_str_radix(str::from_utf8(pair).ok()?, 16).ok();
    digits
        .chunks(2)
        .map(|pair| byte(pair).expect("two digits"))
        .collect()
}
