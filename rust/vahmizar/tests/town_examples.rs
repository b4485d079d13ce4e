//! The worked examples of towns and moments, `crates/rules/specs/TownExamples.antt`,
//! through the C calls.

use vahmizar::sys;

/// Two towns, east and west, in one zone; west has a delegation at h.b, a zone
/// and a wildcard of its own.
const BOTH: &str = "\
%ea:192.0
.b
+h.b:192.0.2.1:::ea
+h.b:192.0.2.2:::we
&h.b::x.y:::we
.s.b::i:::we
%we:192.168
+*.b:192.0.2.3:::we
+*.b:192.0.2.4
";

/// The same for a client in the east: west's lines are gone, another town's
/// are there.
const EAST_ALONE: &str = "\
# east
+x.s.b:192.0.2.5:::zz
.b\x20
%ea:192.0
%we:192.168
+h.b:192.0.2.1:::ea
.h.b::i:::zz
+*.b:192.0.2.4
";

/// Of equal prefixes the first counts.
const EAST_FIRST: &str = "\
%ea:192.0
%we:192.0
.b
+h.b:192.0.2.1:::ea
+h.b:192.0.2.2:::we
";

const WEST_FIRST: &str = "\
%we:192.0
%ea:192.0
.b
+h.b:192.0.2.1:::ea
+h.b:192.0.2.2:::we
";

/// Another town's addresses among ours, and capitals.
const SEVERAL: &str = "\
+h.b:192.0.2.9:::zz
+h.b:192.0.2.1
+h.b:192.0.2.2:::we
+H.B:192.0.2.3:::ea
.b
%we:192.168
+h.b:192.0.2.4:::we
%ea:192
+h.b:192.0.2.5
";

/// Towns whose lo begin alike, or have the same letter in another case.
const LETTERS: &str = "\
%e
.b
+h.b:192.0.2.1:::ea
+h.b:192.0.2.2:::E
+h.b:192.0.2.3:::e
";

/// An address until a second, another from it on.
const CHANGES: &str = "\
.b
+w.b:192.0.2.234:0:4000000038af1379
+w.b:192.0.2.235::4000000038af1379
";

const CHANGE: u64 = 0x4000_0000_38af_1379;

const EAST: &[u8] = &[192, 0, 2, 9];
const WEST: &[u8] = &[192, 168, 0, 1];
const ELSEWHERE: &[u8] = &[10, 0, 0, 1];
const FAR: &[u8] = &[192, 0, 2, 0, 0, 0, 0, 0, 0, 0, 0, 0, 0, 0, 0, 0];
const NO_ADDRESS: &[u8] = &[10];

const H_B: &[u8] = b"\x01h\x01b\x00";
const X_S_B: &[u8] = b"\x01x\x01s\x01b\x00";
const CAPITAL_H_B: &[u8] = b"\x01H\x01b\x00";
const STAR_B: &[u8] = b"\x01*\x01b\x00";
const C: &[u8] = b"\x01c\x00";
const W_B: &[u8] = b"\x01w\x01b\x00";

/// At an ordinal: the number returned, type, lifetime, length and outcome, and
/// the data handed out.
type Said = ([u64; 5], &'static [u8]);

/// A source, the client and moment of a question of type A, its name, and what
/// is said at the ordinals from 0 on.
type Row = (
    &'static str,
    &'static [u8],
    u64,
    &'static [u8],
    &'static [Said],
);

const NO_MORE: Said = ([18, 0, 0, 0, 3], b"");
const FIRST: &[Said] = &[([0, 1, 86400, 4, 3], &[192, 0, 2, 1]), NO_MORE];
const SECOND: &[Said] = &[([0, 1, 86400, 4, 3], &[192, 0, 2, 2]), NO_MORE];
const FOURTH: &[Said] = &[([0, 1, 86400, 4, 3], &[192, 0, 2, 4]), NO_MORE];
const AFTER: &[Said] = &[([0, 1, 86400, 4, 3], &[192, 0, 2, 235]), NO_MORE];

const THIRD: &[Said] = &[([0, 1, 86400, 4, 3], &[192, 0, 2, 3]), NO_MORE];
const SEEN: &[Said] = &[
    ([0, 1, 86400, 4, 3], &[192, 0, 2, 1]),
    ([0, 1, 86400, 4, 3], &[192, 0, 2, 3]),
    ([0, 1, 86400, 4, 3], &[192, 0, 2, 5]),
    NO_MORE,
];

const ROWS: &[Row] = &[
    (BOTH, EAST, 1, H_B, FIRST),
    (EAST_ALONE, EAST, 1, H_B, FIRST),
    (BOTH, EAST, 1, X_S_B, FOURTH),
    (EAST_ALONE, EAST, 1, X_S_B, FOURTH),
    (BOTH, EAST, 1, C, &[([18, 0, 0, 0, 1], b"")]),
    (EAST_ALONE, EAST, 1, C, &[([18, 0, 0, 0, 1], b"")]),
    (
        BOTH,
        WEST,
        1,
        H_B,
        &[
            ([0, 2, 259200, 5, 2], b"\x01x\x01y\x00"),
            ([18, 0, 0, 0, 2], b""),
        ],
    ),
    (BOTH, WEST, 1, X_S_B, &[([18, 0, 0, 0, 5], b"")]),
    (BOTH, EAST, 1, CAPITAL_H_B, FIRST),
    (BOTH, EAST, 1, STAR_B, FOURTH),
    (SEVERAL, EAST, 1, H_B, SEEN),
    (LETTERS, EAST, 1, H_B, THIRD),
    (BOTH, FAR, 1, H_B, FOURTH),
    (BOTH, NO_ADDRESS, 1, H_B, &[([17, 0, 0, 0, 0], b"")]),
    (BOTH, ELSEWHERE, 1, H_B, FOURTH),
    (EAST_FIRST, EAST, 1, H_B, FIRST),
    (WEST_FIRST, EAST, 1, H_B, SECOND),
    (
        CHANGES,
        EAST,
        CHANGE - 5,
        W_B,
        &[([0, 1, 5, 4, 3], &[192, 0, 2, 234]), NO_MORE],
    ),
    (
        CHANGES,
        EAST,
        CHANGE - 1,
        W_B,
        &[([0, 1, 2, 4, 3], &[192, 0, 2, 234]), NO_MORE],
    ),
    (CHANGES, EAST, CHANGE, W_B, AFTER),
    (CHANGES, EAST, CHANGE + 5, W_B, AFTER),
];

#[test]
fn what_towns_are_told() {
    for &(source, client, moment, name, told) in ROWS {
        let records = vahmizar::compile_to_vec(source.as_bytes(), 7).unwrap();
        for (ordinal, &(wanted, data)) in (0..).zip(told) {
            let mut answer = [170; sys::ASK_ANSWER];
            let number = sys::ask(&records, name, 1, client, moment, ordinal, &mut answer);
            let numbers = [0, 1, 2, 4, 5].map(|place| sys::answer_number(&answer, place));
            assert_eq!((number, numbers), (wanted[0], wanted), "{source}{name:?}");
            let place = sys::answer_number(&answer, 3) as usize;
            let end = place + sys::answer_number(&answer, 4) as usize;
            assert_eq!(&records[place..end], data, "{source}{name:?}");
        }
    }
}
