//! Pairs of sources that a client can't tell apart, with the answer that the
//! rules give. The comparison holds the library to the same ones.

/// Two sources that differ in other towns' lines alone, a question, and what
/// both answer.
pub struct Pair {
    /// Both sources, each line ended.
    pub sources: [&'static str; 2],
    /// The client's address.
    pub client: &'static [u8],
    /// The name asked for, and the type.
    pub asked: (&'static str, u16),
    /// The outcome's number.
    pub outcome: u64,
    /// Type, lifetime and data of each record.
    pub list: &'static [(u64, u64, &'static [u8])],
}

/// When the questions are asked: a second before the time in the lines.
pub const MOMENT: u64 = 0x4000_0000_38af_1378;

/// A client of the town `to` wherever `10` is its prefix.
const CLIENT: &[u8] = &[10, 1, 2, 3];
/// The A record that most of the questions get.
const OURS: &[(u64, u64, &[u8])] = &[(1, 86_400, &[192, 0, 2, 1])];

const fn pair(
    sources: [&'static str; 2],
    asked: (&'static str, u16),
    outcome: u64,
    list: &'static [(u64, u64, &'static [u8])],
) -> Pair {
    Pair {
        sources,
        client: CLIENT,
        asked,
        outcome,
        list,
    }
}

/// Addresses from `192.0.2.200` on are other towns'.
pub const PAIRS: &[Pair] = &[
    // A zone each for the same name.
    pair(
        [
            "%to:10\n%vi:192\n.a:::::to\n+a:192.0.2.1:::to\n",
            "%to:10\n.a::x.y:::vi\n+a:192.0.2.201:::vi\n.a:::::to\n%vi:192\n\
             +a:192.0.2.202:::vi\n+a:192.0.2.1:::to\n&a::x.y:::vi\n",
        ],
        ("a", 1),
        3,
        OURS,
    ),
    // Another town's delegation at the asked name, and above it.
    pair(
        [
            "%to:10\n.a\n+h.s.a:192.0.2.1\n",
            "%to:10\n&h.s.a::x.y:::vi\n.a\n+h.s.a:192.0.2.1\n",
        ],
        ("h.s.a", 1),
        3,
        OURS,
    ),
    pair(
        [
            "%to:10\n.a\n&s.a::z.y:::vi\n+h.s.a:192.0.2.1\n",
            "%to:10\n.a\n+h.s.a:192.0.2.1\n&s.a::x.y:::vi\n&s.a::x.y:::wi\n",
        ],
        ("h.s.a", 1),
        3,
        OURS,
    ),
    // Another town's authority makes no zone of our delegation.
    pair(
        [
            "%to:10\n.a\n&s.a::x.y\n",
            "%to:10\n.a\nZs.a:m:r::::::::vi\n&s.a::x.y\n+h.s.a:192.0.2.201:::vi\n",
        ],
        ("h.s.a", 1),
        2,
        &[(2, 259_200, b"\x01x\x01y\0")],
    ),
    // Another town's wildcard nearer than ours.
    pair(
        [
            "%to:10\n.a\n+*.a:192.0.2.1\n",
            "%to:10\n+*.s.a:192.0.2.201:::vi\n.a\n+*.a:192.0.2.202:::vi\n+*.a:192.0.2.1\n",
        ],
        ("h.s.a", 1),
        3,
        OURS,
    ),
    // Another town has the name itself; we have only the wildcard.
    pair(
        [
            "%to:10\n.a\n+*.a:192.0.2.1:::to\n+h.a:192.0.2.200:::vi\n",
            "%to:10\n.a\n+*.a:192.0.2.1:::to\n'h.a:x:::vi\n'h.a:x:::a\n",
        ],
        ("h.a", 1),
        3,
        OURS,
    ),
    // The location comes from a line further down.
    pair(
        [
            "%to:10\n%vi\n.a\n+a:192.0.2.1:::to\n",
            "+a:192.0.2.201:::vi\n.a\n+a:192.0.2.1:::to\n%to:10\n+a:192.0.2.202:::vi\n%vi\n",
        ],
        ("a", 1),
        3,
        OURS,
    ),
    // Of equal prefixes the first counts, the longest before all.
    pair(
        [
            "%vi\n%wi:10\n%to:10.1\n%vi:10.1\n.a\n+a:192.0.2.1:::to\n",
            "%vi\n+a:192.0.2.201:::wi\n%wi:10\n.a\n%to:10.1\n+a:192.0.2.1:::to\n%vi:10.1\n\
             +a:192.0.2.202:::vi\n",
        ],
        ("a", 1),
        3,
        OURS,
    ),
    // Without a location all lines with a lo are other towns'.
    pair(
        [
            "%to:11\n.a\n+*.a:192.0.2.1\n",
            "%to:11\n+h.a:192.0.2.201:::to\n.a\n&h.a::x.y:::vi\n+*.a:192.0.2.1\n",
        ],
        ("h.a", 1),
        3,
        OURS,
    ),
    Pair {
        sources: [
            "%to:10\n%to:0\n.a\n+a:192.0.2.1\n",
            "%to:10\n%to:0\n.a\n+a:192.0.2.201:::to\n+a:192.0.2.1\n",
        ],
        client: &[0; 16],
        asked: ("a", 1),
        outcome: 3,
        list: OURS,
    },
    // IPv6 clients are where the empty prefix puts them.
    Pair {
        sources: [
            "%vi:0\n%to\n.a\n+a:192.0.2.1:::to\n+a:192.0.2.201:::vi\n",
            "+a:192.0.2.202:::vi\n.a\n%vi:0\n+a:192.0.2.1:::to\n%to\n",
        ],
        client: &[0; 16],
        asked: ("a", 1),
        outcome: 3,
        list: OURS,
    },
    // One letter and two, and other case, are other towns.
    pair(
        [
            "%t:10\n.a\n+a:192.0.2.1:::t\n",
            "%t:10\n+a:192.0.2.201:::to\n.a:::::T\n.a\n+a:192.0.2.1:::t\n+a:192.0.2.202:::T\n",
        ],
        ("a", 1),
        3,
        OURS,
    ),
    pair(
        [
            "%to:10\n.a\n+*.a:192.0.2.1:::to\n",
            "%to:10\n+h.a:192.0.2.201:::tO\n.a\n+*.a:192.0.2.1:::to\n+h.a:192.0.2.202:::ti\n",
        ],
        ("h.a", 1),
        3,
        OURS,
    ),
    // A zone of another town alone: the name isn't ours.
    pair(
        ["%to:10\n", "%to:10\n.a:::::vi\n+a:192.0.2.201:::vi\n"],
        ("a", 1),
        1,
        &[],
    ),
    // Its records make no name known, and none without the type.
    pair(
        [
            "%to:10\n.a\n",
            "%to:10\n+h.a:192.0.2.201:::vi\n.a\n+*.a:192.0.2.202:::vi\n",
        ],
        ("h.a", 1),
        5,
        &[],
    ),
    pair(
        [
            "%to:10\n.a\n'h.a:x\n",
            "%to:10\n+h.a:192.0.2.201:::vi\n.a\n'h.a:x\n",
        ],
        ("h.a", 1),
        4,
        &[],
    ),
    // Comments, empty lines and blanks at the end are no difference, and
    // neither are other towns' times.
    pair(
        [
            "%to:10\n.a\n+a:192.0.2.9:0:4000000038af1379:to\n+a:192.0.2.1\n",
            "# towns\n%to:10 \t\n\n.a\t\n+a:192.0.2.201:0:4000000038af1379:vi\n-a:to\n\
             +a:192.0.2.9:0:4000000038af1379:to \n+a:192.0.2.1 \n+a:192.0.2.202::1000000000000000:vi",
        ],
        ("a", 1),
        3,
        &[
            (1, 2, &[192, 0, 2, 9]),
            (1, 86_400, &[192, 0, 2, 1]),
        ],
    ),
];
