//! Lines of every kind.

use crate::fields::Field;
use crate::random::Random;

const TTL: Field = Field::Number(2_147_483_647);
const SHORT: Field = Field::Number(65_535);
const LONG: Field = Field::Number(u32::MAX);

/// The kinds of lines that make records, with their fields.
pub const KINDS: [(u8, &[Field]); 12] = {
    use Field::*;
    [
        (b'%', &[GivenLo, Prefix]),
        (b'.', &[Name, Address, Server, TTL, Time, Lo]),
        (b'&', &[Name, Address, Server, TTL, Time, Lo]),
        (b'=', &[Name, GivenAddress, TTL, Time, Lo]),
        (b'+', &[Name, GivenAddress, TTL, Time, Lo]),
        (b'@', &[Name, Address, Server, SHORT, TTL, Time, Lo]),
        (
            b'S',
            &[
                Name,
                Address,
                Server,
                GivenNumber,
                SHORT,
                SHORT,
                TTL,
                Time,
                Lo,
            ],
        ),
        (b'\'', &[Name, Text, TTL, Time, Lo]),
        (b'^', &[Name, GivenName, TTL, Time, Lo]),
        (b'C', &[Name, GivenName, TTL, Time, Lo]),
        (
            b'Z',
            &[
                Name, GivenName, GivenName, LONG, LONG, LONG, LONG, LONG, TTL, Time, Lo,
            ],
        ),
        (b':', &[Name, Type, Text, TTL, Time, Lo]),
    ]
};

/// How far lines may go.
#[derive(Clone, Copy, Debug, PartialEq, Eq)]
pub enum Mood {
    /// Only what the rules take.
    Good,
    /// Now and then at a limit or over it.
    Borderline,
}

/// A line of any kind, without its end.
pub fn any(mood: Mood, random: &mut Random) -> Vec<u8> {
    match random.below(40) {
        0 => b"# a:comment".to_vec(),
        1 => b"-a:1.2.3.4:too:many:fields:here:and:more".to_vec(),
        2 => random.pick(&["", " ", "\t \t"]).into(),
        3 if mood == Mood::Borderline => odd(random),
        4 if mood == Mood::Borderline => of_length(random),
        _ => {
            let (kind, fields) = random.pick(&KINDS);
            of_kind(kind, fields, mood, random)
        }
    }
}

/// A line of one kind.
pub fn of_kind(kind: u8, fields: &[Field], mood: Mood, random: &mut Random) -> Vec<u8> {
    let borderline = mood == Mood::Borderline;
    let mut parts: Vec<Vec<u8>> = fields
        .iter()
        .map(|field| match borderline && random.once_in(8) {
            true => field.borderline(random),
            false => field.good(random),
        })
        .collect();
    if borderline && random.once_in(20) {
        parts.push(Vec::new());
    }
    // Empty fields at the end may be left out.
    while parts.last().is_some_and(Vec::is_empty) && !random.once_in(4) {
        parts.pop();
    }
    let mut line = vec![kind];
    line.extend(parts.join(&b':'));
    if random.once_in(12) {
        line.extend_from_slice(random.pick(&[" ", "\t", "  \t"]).as_bytes());
    }
    if line.len() > 1024 && !borderline {
        line.truncate(1);
        line[0] = b'#';
    }
    line
}

/// The field of a good line that stands so far from the last one of its kind:
/// 0 is the location, 1 the time, 2 the ttl. Empty where the line ends before.
pub fn field_from_end(line: &[u8], back: usize) -> &[u8] {
    let (kind, fields) = fields_of(line);
    let mut parts = line[kind.len()..].split(|&byte| byte == b':');
    parts
        .nth(fields - 1 - back)
        .unwrap_or_default()
        .trim_ascii_end()
}

/// The line with that field changed.
pub fn with_field(line: &[u8], back: usize, value: &[u8]) -> Vec<u8> {
    let (kind, fields) = fields_of(line);
    let parts = line[kind.len()..].split(|&byte| byte == b':');
    let mut parts: Vec<_> = parts.map(<[u8]>::to_vec).collect();
    parts.resize(fields, Vec::new());
    parts[fields - 1 - back] = value.to_vec();
    [kind, &parts.join(&b':')].concat()
}

/// The kind of a good line with records, and how many fields it has.
fn fields_of(line: &[u8]) -> (&[u8], usize) {
    let kind = KINDS.iter().find(|(kind, _)| line.first() == Some(kind));
    let (_, fields) = kind.expect("a line with records");
    (&line[..1], fields.len())
}

/// A line of no kind, or with blanks at odd places.
fn odd(random: &mut Random) -> Vec<u8> {
    let line = random.pick(&[
        "!",
        "\r",
        " +a:1.2.3.4",
        "H",
        "s",
        "z",
        "c",
        "6a:1",
        "+",
        "=",
        ".",
        "&",
        "@",
        "S",
        "C",
        "^",
        "Z",
        ":",
        "'",
        "%",
        "%:1",
        ":::",
        "+a:1.2.3.4\r",
        "'a:x\r",
        "\u{b}",
        "\0",
        "+::::",
        "+a:1.2.3.4:::",
        "+a:1.2.3.4::::",
        "+a:1.2.3.4::: ",
        "a",
        "3a:1",
    ]);
    line.as_bytes().to_vec()
}

/// A line of a length at the limit.
pub fn of_length(random: &mut Random) -> Vec<u8> {
    let length = random.pick(&[1022, 1023, 1024, 1025, 1026, 2000]);
    let mut line: Vec<u8> = random
        .pick(&["", "#", "-", "+a:1.2.3.4", "'a:", "!", "\t"])
        .into();
    let fill = match line.first() {
        Some(b'\'' | b'#') => random.pick(b"x "),
        _ => b' ',
    };
    line.resize(length, fill);
    line
}

#[cfg(test)]
mod tests {
    use super::*;

    /// Only a name put together from good fields may still be too long.
    #[test]
    fn good_lines_are_good() {
        for (number, (kind, fields)) in KINDS.into_iter().enumerate() {
            for case in 0..2_000 {
                let mut random = Random::of_case(number as u64, case);
                let line = of_kind(kind, fields, Mood::Good, &mut random);
                if let Err(bad) = reference::records(&line, 1) {
                    assert_eq!((bad.fault.number(), bad.field), (5, 0), "{line:?}");
                }
            }
        }
    }
}
