//! Other towns' lines, and moments without a time between them.

mod pairs;
mod support;

use pairs::{MOMENT, PAIRS};
use reference::towns::{alike, is_for, location, share, steady, times};
use reference::values::Lo;
use support::*;

/// The time in the lines below.
const TIME: u64 = 0x4000_0000_38af_1379;

#[test]
fn worked_pairs() {
    for pair in PAIRS {
        let [first, second] = pair.sources.map(str::as_bytes);
        assert!(alike(first, second, pair.client), "{:?}", pair.sources);
        assert_ne!(first, second);
        let (name, record_type) = pair.asked;
        for source in [first, second] {
            let (outcome, list) = told(source, name, record_type, pair.client, MOMENT);
            let list: Vec<_> = list
                .iter()
                .map(|(record_type, lifetime, data)| {
                    (u64::from(*record_type), u64::from(*lifetime), &data[..])
                })
                .collect();
            assert_eq!((outcome, &list[..]), (pair.outcome, pair.list), "{name}");
        }
    }
}

#[test]
fn a_share_is_what_counts_for_the_client() {
    let source = b"%to:10\n.a:::::vi \n+a:192.0.2.1\t\n# x\n%vi\n\n'a:x:::to\n-\nCb:a:::t\n";
    let town = share(source, &[10, 0, 0, 1]);
    assert_eq!(town.locations, [&b"%to:10"[..], b"%vi"]);
    assert_eq!(town.others, [&b"+a:192.0.2.1"[..], b"'a:x:::to"]);
    let village = share(source, &[11, 0, 0, 1]);
    assert_eq!(village.locations, town.locations);
    assert_eq!(village.others, [&b".a:::::vi"[..], b"+a:192.0.2.1"]);
}

#[test]
fn lo_is_the_last_field_of_every_kind() {
    let lines: [&[u8]; 12] = [
        b".a:1.2.3.4:x:5::to",
        b"&a:1.2.3.4:x:5::to",
        b"=a:1.2.3.4:5::to",
        b"+a:1.2.3.4:5::to",
        b"@a:1.2.3.4:x:6:5::to",
        b"Sa:1.2.3.4:x:80:7:6:5::to",
        b"'a:x:5::to",
        b"^a:b:5::to",
        b"Ca:b:5::to",
        b"Za:m:r:1:2:3:4:5:6::to",
        b":a:99:x:5::to",
        b":a:99:vi:5::to",
    ];
    let [to, vi] = [b"to", b"vi"].map(|letters| Some(Lo(*letters)));
    for line in lines {
        assert!(good(line));
        assert!(is_for(line, to));
        assert!(!is_for(line, vi) && !is_for(line, None));
        let without = &line[..line.len() - 2];
        assert!(is_for(without, to) && is_for(without, None));
    }
    // What looks like a lo in another field is none.
    for line in [
        &b"+to:1.2.3.4"[..],
        b"'a:to",
        b"Ca:to",
        b".a::to",
        b":a:99:to",
    ] {
        assert!(good(line) && is_for(line, None));
    }
}

#[test]
fn the_order_of_both_sorts_counts() {
    let client = [10, 1, 2, 3];
    let same = |first: &str, second: &str| alike(first.as_bytes(), second.as_bytes(), &client);
    // Of two equal prefixes the first decides where the client is.
    assert!(!same("%to:10\n%vi:10\n", "%vi:10\n%to:10\n"));
    assert_eq!(location(b"%to:10\n%vi:10", &client), Some(Lo(*b"to")));
    assert_eq!(location(b"%vi:10\n%to:10", &client), Some(Lo(*b"vi")));
    assert!(!same(
        "+a:1.2.3.4\n+a:1.2.3.5\n",
        "+a:1.2.3.5\n+a:1.2.3.4\n"
    ));
    // Nothing is said of how they are mixed.
    assert!(same("%to:10\n+a:1.2.3.4\n", "+a:1.2.3.4\n%to:10\n"));
    // The same records in other words aren't the same lines.
    assert!(!same("+a:1.2.3.4\n", "+a:1.2.3.4:86400\n"));
    assert!(!same("+a:1.2.3.4\n", "+a:1.2.3.4\n+a:1.2.3.4\n"));
    assert!(!same("%to:10\n+a:1.2.3.4:::to\n", "%to:10\n"));
    assert!(same("%vi:10\n+a:1.2.3.4:::to\n", "%vi:10\n"));
    assert!(same("+a:1.2.3.4:::to\n", "+a:1.2.3.4:::vi\n"));
}

/// What other towns may have, and what the client has.
const OTHERS: [&str; 5] = [
    ".s.b:::::vi",
    "&h.s.b::x.y:::vi",
    "+h.s.b:192.0.2.201:::vi",
    "'*.s.b:x:::vi",
    "Zs.b:m:r::::::::vi",
];
const OURS: [&str; 6] = [
    ".b",
    "&s.b::x.y:::to",
    "Zs.b:m:r::::::::to",
    "+*.b:192.0.2.1:::to",
    "+h.s.b:192.0.2.2:::to",
    "%to:10",
];

#[test]
fn every_choice_of_some_lines() {
    let chosen = |lines: &[&'static str], choice: usize| -> Vec<&'static str> {
        let lines = lines.iter().enumerate();
        let lines = lines.filter(|(place, _)| choice >> place & 1 == 1);
        lines.map(|(_, line)| *line).collect()
    };
    let client = [10, 1, 2, 3];
    let asked = ["", "b", "s.b", "h.s.b", "q.s.b", "q.h.s.b"];
    for ours in (0..1 << OURS.len()).map(|choice| chosen(&OURS, choice)) {
        let first = ours.join("\n");
        let without = asked.map(|name| told(first.as_bytes(), name, 255, &client, NOW));
        for others in (1..1 << OTHERS.len()).map(|choice| chosen(&OTHERS, choice)) {
            let second = [&others[..1], &ours[..], &others[1..]].concat().join("\n");
            assert!(alike(first.as_bytes(), second.as_bytes(), &client));
            let with = asked.map(|name| told(second.as_bytes(), name, 255, &client, NOW));
            assert_eq!(with, without, "{second}");
        }
    }
}

#[test]
fn times_after_the_earlier_and_not_after_the_later_moment_count() {
    let source = b"%to:10\n+a:192.0.2.1:0:4000000038af1379\n+a:192.0.2.2::4000000038af1380:to\n\
                   # +a:1.2.3.4::4000000038af137a\n'a:4000000038af137b:5\n+b:192.0.2.3\n";
    assert_eq!(times(source).collect::<Vec<_>>(), [TIME, TIME + 7]);
    assert!(steady(source, TIME, TIME + 6));
    assert!(!steady(source, TIME, TIME + 7));
    assert!(!steady(source, TIME - 1, TIME));
    assert!(steady(source, 0, TIME - 1));
    assert!(steady(source, TIME + 7, u64::MAX >> 1));
    for moment in [TIME - 1, TIME, TIME + 7] {
        assert!(steady(source, moment, moment));
    }
}

#[test]
fn between_steady_moments_only_ending_lifetimes_differ() {
    let source = b".a\n+a:192.0.2.1:0:4000000038af1379\n+a:192.0.2.2::4000000038af1379\n\
                   +a:192.0.2.3:0\n+a:192.0.2.4:5:4000000038af1000\n";
    let at = |moment: u64| {
        let (outcome, list) = told(source, "a", 1, &[10, 1, 2, 3], moment);
        assert_eq!(outcome, 3);
        let shown = list.iter().map(|handed| (handed.2[3], handed.1));
        shown.collect::<Vec<_>>()
    };
    assert!(steady(source, TIME - 800, TIME - 1));
    assert_eq!(at(TIME - 800), [(1, 800), (3, 0), (4, 5)]);
    assert_eq!(at(TIME - 2), [(1, 2), (3, 0), (4, 5)]);
    assert_eq!(at(TIME - 1), [(1, 2), (3, 0), (4, 5)]);
    // A time at the later moment changes the records, one at the earlier not.
    assert!(!steady(source, TIME - 1, TIME));
    assert_eq!(at(TIME), [(2, 86_400), (3, 0), (4, 5)]);
    assert!(steady(source, TIME, TIME + 9_000));
    assert_eq!(at(TIME + 9_000), at(TIME));
    // Far from its end a record is kept for an hour.
    let early = TIME - 0x379;
    assert!(steady(source, early - 9_000, early - 5_000));
    assert_eq!(at(early - 9_000), [(1, 3_600), (3, 0)]);
    assert_eq!(at(early - 5_000), [(1, 3_600), (3, 0)]);
}
