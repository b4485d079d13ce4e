//! Sources joined: told from the parts, and compiled as one.

mod joins;
mod support;

use joins::{joins, Join};
use support::*;

/// What stands in a buffer before a call.
const BEFORE: u8 = 0x55;

/// Numbers and buffer of the whole, told from its parts.
fn from_parts(parts: &[&[u8]], room: usize) -> Option<([u64; 4], Vec<u8>)> {
    let mut out = vec![BEFORE; room];
    let answer = reference::joined(parts, SERIAL, &mut out, &reference::compile)?;
    Some((answer.numbers(), out))
}

/// Numbers and buffer of a source compiled.
fn compiling(source: &[u8], room: usize) -> ([u64; 4], Vec<u8>) {
    let mut out = vec![BEFORE; room];
    let answer = reference::compile(source, SERIAL, &mut out);
    (answer.numbers(), out)
}

/// The records of the whole, told from its parts.
fn records(parts: &[&[u8]]) -> Vec<u8> {
    let (answer, _) = from_parts(parts, 0).expect("parts that are ended");
    let [_, _, _, bytes] = answer;
    let (answer, records) = from_parts(parts, bytes as usize).expect("the same parts");
    assert_eq!(answer, [0, 0, 0, bytes]);
    records
}

/// Holds parts to their answer in several sizes of room, told from the parts
/// and compiled as one.
fn hold(join: &Join) {
    let parts: Vec<&[u8]> = join.parts.iter().map(Vec::as_slice).collect();
    let whole = parts.concat();
    let [number, _, _, bytes] = join.answer;
    let bytes = bytes as usize;
    for room in [0, bytes.saturating_sub(1), bytes, bytes + 9] {
        let words = format!(
            "room {room}, {}",
            whole[..whole.len().min(99)].escape_ascii()
        );
        let (answer, out) = from_parts(&parts, room).expect(&words);
        let wanted = match room < bytes {
            true => [13, 0, 0, bytes as u64],
            false => join.answer,
        };
        assert_eq!(answer, wanted, "{words}");
        let written = if answer[0] == 0 { bytes } else { 0 };
        assert!(out[written..].iter().all(|&byte| byte == BEFORE), "{words}");
        assert_eq!(compiling(&whole, room), (answer, out), "{words}");
    }
    assert!(number == 0 || bytes == 0);
}

#[test]
fn worked_joins() {
    for join in joins() {
        hold(&join);
    }
}

#[test]
fn records_stand_in_the_order_of_the_parts() {
    let a: &[u8] = b"+a.b:192.0.2.1\n";
    let b: &[u8] = b"%in:10\n";
    let a_bytes = [
        5, 0, 0, 0, 0x13, 0, 0, 0, 1, 0x61, 1, 0x62, 0, 0, 1, 0x3d, 0, 1, 0x51, 0x80, 0, 0, 0, 0,
        0, 0, 0, 0, 0xc0, 0, 2, 1,
    ];
    let b_bytes = [3, 0, 0, 0, 2, 0, 0, 0, 0, b'%', 10, b'i', b'n'];
    assert_eq!(records(&[a, b]), [&a_bytes[..], &b_bytes].concat());
    assert_eq!(records(&[b, a]), [&b_bytes[..], &a_bytes].concat());
    assert_eq!(records(&[b, b"", a, b"\n", b]).len(), 13 + 32 + 13);
}

#[test]
fn all_parts_have_the_same_serial() {
    let serials = |parts: &[&[u8]], name: &str| -> Vec<Vec<u8>> {
        let handed = asked_as(&parts.concat(), name, 6, &[0; 4], NOW);
        assert_eq!(compiled(&parts.concat()), records(parts));
        let serial = |data: &[u8]| data[data.len() - 20..][..4].to_vec();
        handed.iter().map(|handed| serial(&handed.2)).collect()
    };
    let given = SERIAL.to_be_bytes().to_vec();
    let parts: [&[u8]; 3] = [b".a\n", b"Za:m:r\n", b"Za:m:r:5\n.a"];
    let five = vec![0, 0, 0, 5];
    let wanted = [given.clone(), given.clone(), five, given];
    assert_eq!(serials(&parts, "a"), wanted);
}

#[test]
fn locations_of_a_later_part_hold_for_an_earlier_one() {
    let town: &[u8] = b".a\n+a:192.0.2.1:::in\n+a:192.0.2.2:::ex\n";
    let places: &[u8] = b"%in:192.168\n%ex\n";
    for parts in [[town, places], [places, town]] {
        let from = |client: &[u8]| {
            let handed = asked_as(&parts.concat(), "a", 1, client, NOW);
            handed.iter().map(|handed| handed.2[3]).collect::<Vec<_>>()
        };
        assert_eq!(from(&[192, 168, 7, 7]), [1]);
        assert_eq!(from(&[192, 0, 2, 9]), [2]);
        assert_eq!(compiled(&parts.concat()), records(&parts));
    }
    // Of equal prefixes the first counts, in whichever part it stands.
    let whole = [town, b"%ex\n", b"%in"].concat();
    assert_eq!(asked_as(&whole, "a", 1, &[0; 4], NOW)[0].2[3], 2);
}

#[test]
fn a_part_that_is_not_ended_says_nothing() {
    assert_eq!(from_parts(&[b"+a:1.2.3.4", b"+b:1.2.3.4"], 99), None);
    assert_eq!(refused(b"+a:1.2.3.4+b:1.2.3.4"), (6, 1, 2));
    assert_eq!(from_parts(&[b"\n", b"+a:1.2", b".3.4\n"], 99), None);
    assert!(good(b"\n+a:1.2.3.4\n"));
    assert_eq!(from_parts(&[b"#", b"!"], 99), None);
    assert_eq!(from_parts(&[b"+a:1.2.3.4\r", b"!"], 99), None);
    assert!(from_parts(&[b"\n", b"#"], 99).is_some());
}

/// Small parts, the first of them ended.
const ENDED: [&[u8]; 12] = [
    b"",
    b"\n",
    b"#\n",
    b" \n\t\n",
    b"+a:1.2.3.4\n",
    b".a\n\n",
    b"%in:10\n",
    b"Za:m:r:::::::0::in\n-x\n",
    b"!\n",
    b"+a:1.2.3.4:x\n+a\n",
    b"\n\nC\n",
    b"'a:\\\r\n",
];
const OPEN: [&[u8]; 6] = [b"#", b"+b:1.2.3.4", b"!", b"\n+b:1.2.3.256", b"\n\nS", b" "];

#[test]
fn every_choice_of_small_parts() {
    let mut choices: Vec<Vec<&[u8]>> = vec![Vec::new()];
    for _ in 0..3 {
        let longer = choices.iter().flat_map(|choice| {
            let add = |part| [&choice[..], &[part]].concat();
            ENDED.into_iter().map(add)
        });
        choices = longer.collect();
        for choice in &choices {
            for last in ENDED.into_iter().chain(OPEN) {
                let parts = [&choice[..], &[last]].concat();
                let whole = parts.concat();
                for room in [0, 60, 500] {
                    let told = from_parts(&parts, room).expect("parts that are ended");
                    assert_eq!(told, compiling(&whole, room), "{parts:?}");
                }
            }
        }
    }
}

#[test]
fn closing_changes_nothing() {
    for source in ENDED.into_iter().chain(OPEN) {
        let closed = [source, b"\n"].concat();
        for room in [0, 29, 30, 500] {
            assert_eq!(compiling(&closed, room), compiling(source, room));
        }
    }
    // But a source can become too long by it.
    let mut longest = b"#\n".repeat(524_287);
    longest.extend(b"##");
    assert_eq!(answer(&longest, 0), [0, 0, 0, 0]);
    longest.push(b'\n');
    assert_eq!(answer(&longest, 0), [1, 0, 0, 0]);
}
