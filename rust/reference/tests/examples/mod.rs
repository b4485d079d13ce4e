//! Fixed questions with the answers that the rules give, numbers and all. The
//! comparison holds the library to the same ones.

/// Lines, questions and what each of them is answered.
pub struct Example {
    /// The source, each line ended.
    pub lines: &'static str,
    /// Names, each with the types asked for.
    pub asked: &'static [(&'static str, &'static [u16])],
    /// The client's address.
    pub client: [u8; 4],
    /// The moment.
    pub moment: u64,
    /// Type, lifetime, place and length of each record.
    pub list: &'static [[u64; 4]],
    /// The outcome's number.
    pub outcome: u64,
}

impl Example {
    /// The names on the wire and the types.
    pub fn questions(&self) -> impl Iterator<Item = (Vec<u8>, u16)> {
        let asked = self.asked.iter();
        asked.flat_map(|(name, types)| types.iter().map(|&asked| (wire(name), asked)))
    }

    /// The answer at an ordinal.
    pub fn answer(&self, ordinal: u64) -> [u64; 6] {
        match self.list.get(ordinal as usize) {
            Some(&[record_type, lifetime, place, length]) => {
                [0, record_type, lifetime, place, length, self.outcome]
            }
            None => [18, 0, 0, 0, 0, self.outcome],
        }
    }
}

/// A name on the wire; the empty one is the root.
pub fn wire(name: &str) -> Vec<u8> {
    let mut wire = Vec::new();
    for label in name.split('.').filter(|label| !label.is_empty()) {
        wire.push(label.len() as u8);
        wire.extend_from_slice(label.as_bytes());
    }
    wire.push(0);
    wire
}

/// The time in the lines.
const TIME: u64 = 0x4000_0000_38af_1379;

const fn example(
    lines: &'static str,
    asked: &'static [(&'static str, &'static [u16])],
    list: &'static [[u64; 4]],
    outcome: u64,
) -> Example {
    Example {
        lines,
        asked,
        client: [192, 0, 2, 9],
        moment: 1,
        list,
        outcome,
    }
}

const fn at(moment: u64, example: Example) -> Example {
    Example { moment, ..example }
}

const fn inside(example: Example) -> Example {
    let client = [192, 168, 7, 7];
    Example { client, ..example }
}

const A: &[u16] = &[1];
const NS: &[u16] = &[2];
const TXT: &[u16] = &[16];
const EACH: &[u16] = &[1, 2, 6, 16, 255, 65_535];

const B10: &str = ".w\n+w:192.0.2.234:0:4000000038af1379\n+w:192.0.2.235::4000000038af1379\n";
const B11: &str = ".a\n+a:192.0.2.1:::in\n+a:192.0.2.2:::ex\n%in:192.168\n%ex\n";
const B12: &str =
    ".u.heaven.af.mil\n+pink.floyd.u.heaven.af.mil:1.2.3.4\n+*.u.heaven.af.mil:1.2.3.200\n";
const PINK: &str = "pink.floyd.u.heaven.af.mil";
const SALLY: &str = "sally.floyd.u.heaven.af.mil";

const ZONE: &str = ".b:192.0.2.1:a\n&sub.b:192.0.2.2:c\n&sub.b:192.0.2.3:d\n\
    +x.sub.b:192.0.2.4\n+*.b:192.0.2.5\n+*:192.0.2.6\n+h.b:192.0.2.7\n";
const DEEP: &str = ".b\n+h.k.b:192.0.2.7\n";
const STARS: &str = ".b\n&*.b::x.y\n";
const SOON: &str = ".b\n&s.b::x.y::4000000038af1379\n+*.b:192.0.2.5\n";
const ENDING: &str = ".b\n&s.b::x.y:0:4000000038af1379\n+*.b:192.0.2.5\n";
const SPLIT: &str = ".b\n.s.b::i:::in\n&s.b::e:::ex\n%in:192.168\n%ex\n+h.s.b:192.0.2.5\n";
const HIDDEN: &str = "Zb:m:r::::::::in\n&b::x.y\n%in:192.168\n+h.b:192.0.2.5\n";
const ROOT: &str = ".\n+*:192.0.2.5\n";

/// The servers that ZONE gives for all below sub.b.
const REFERRAL: &[[u64; 4]] = &[[2, 259_200, 167, 12], [2, 259_200, 248, 12]];

/// All of them, those of the bench examples first.
pub const EXAMPLES: &[Example] = &[
    at(TIME - 1, example(B10, &[("w", A)], &[[1, 2, 124, 4]], 3)),
    at(TIME, example(B10, &[("w", A)], &[[1, 86_400, 154, 4]], 3)),
    inside(example(B11, &[("a", A)], &[[1, 86_400, 126, 4]], 3)),
    example(B11, &[("a", A)], &[[1, 86_400, 158, 4]], 3),
    example(B12, &[(SALLY, A)], &[[1, 86_400, 263, 4]], 3),
    example(B12, &[(PINK, A)], &[[1, 86_400, 219, 4]], 3),
    example(ZONE, &[("h.b", &[1, 255])], &[[1, 86_400, 421, 4]], 3),
    example(ZONE, &[("h.b", TXT), ("q.b", TXT), ("b", A)], &[], 4),
    example(ZONE, &[("q.b", A), ("ns.b", A)], &[[1, 86_400, 361, 4]], 3),
    example(ZONE, &[("b", NS)], &[[2, 259_200, 94, 8]], 3),
    example(
        ZONE,
        &[("b", &[255])],
        &[[6, 2_560, 26, 42], [2, 259_200, 94, 8]],
        3,
    ),
    example(
        ZONE,
        &[("sub.b", EACH), ("x.sub.b", EACH), ("c.ns.sub.b", EACH)],
        REFERRAL,
        2,
    ),
    example(ZONE, &[("c", EACH), ("", EACH)], &[], 1),
    example(DEEP, &[("k.b", EACH)], &[], 5),
    example(STARS, &[("q.b", NS)], &[[2, 259_200, 124, 5]], 3),
    example(STARS, &[("q.b", A)], &[], 4),
    example("&*.b::x.y\n", &[("q.b", EACH)], &[], 1),
    example(
        "Zb:m:r\n+q.b:192.0.2.1\n",
        &[("b", EACH), ("q.b", EACH)],
        &[],
        1,
    ),
    example(
        "Zb:m:r\n&b::x.y\n+q.b:192.0.2.1\n",
        &[("q.b", A)],
        &[[1, 86_400, 111, 4]],
        3,
    ),
    at(
        TIME - 1,
        example(SOON, &[("q.s.b", A)], &[[1, 86_400, 157, 4]], 3),
    ),
    at(
        TIME,
        example(SOON, &[("q.s.b", EACH)], &[[2, 259_200, 126, 5]], 2),
    ),
    at(
        TIME - 1,
        example(ENDING, &[("q.s.b", EACH)], &[[2, 2, 126, 5]], 2),
    ),
    inside(example(SPLIT, &[("h.s.b", A)], &[[1, 86_400, 310, 4]], 3)),
    example(SPLIT, &[("h.s.b", EACH)], &[[2, 259_200, 244, 10]], 2),
    example(HIDDEN, &[("h.b", EACH)], &[[2, 259_200, 80, 5]], 2),
    example(
        "&:192.0.2.1:a\n+h:192.0.2.5\n",
        &[("h", EACH)],
        &[[2, 259_200, 24, 6]],
        2,
    ),
    example(ROOT, &[("h", A)], &[[1, 86_400, 112, 4]], 3),
    example(ROOT, &[("", A)], &[], 4),
];
