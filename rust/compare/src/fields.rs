//! Fields of lines: good ones, and ones at or over the limits.

use crate::names;
use crate::random::Random;

/// The moment around which times and questions are made.
pub const NOON: u64 = 0x4000_0000_38af_1379;

/// Octets of addresses and prefixes: few, so that they often meet.
pub const OCTETS: [u8; 6] = [0, 1, 10, 168, 192, 255];

/// What a field of a line is.
#[derive(Clone, Copy, Debug)]
pub enum Field {
    /// A name; empty is good.
    Name,
    /// A name that must be given.
    GivenName,
    /// An address, or none.
    Address,
    /// An address that must be given.
    GivenAddress,
    /// A server: empty, a label or a name.
    Server,
    /// A number of at most this, or none.
    Number(u32),
    /// A 16-bit number that must be given.
    GivenNumber,
    /// A record type of a generic line.
    Type,
    /// A start or end, or none.
    Time,
    /// A location, or none.
    Lo,
    /// A location that must be given.
    GivenLo,
    /// An address prefix.
    Prefix,
    /// Text with escapes.
    Text,
}

impl Field {
    /// A field that the rules take.
    pub fn good(self, random: &mut Random) -> Vec<u8> {
        match self {
            Field::Name => names::good(random),
            Field::GivenName => match names::good(random) {
                name if name.is_empty() => b"q".to_vec(),
                name => name,
            },
            Field::Address if random.once_in(3) => Vec::new(),
            Field::Address | Field::GivenAddress => address(random),
            Field::Server => match random.below(4) {
                0 => Vec::new(),
                1 => [names::label(random), b".".to_vec(), names::label(random)].concat(),
                2 if random.once_in(4) => random.pick(&[".", "a.", "*.b"]).into(),
                _ => names::label(random),
            },
            Field::Number(_) if random.once_in(2) => Vec::new(),
            Field::Number(most) => number(most, random),
            Field::GivenNumber => number(65_535, random),
            Field::Type => {
                let number = random.pick(&[1, 3, 16, 16, 28, 33, 99, 251, 253, 255, 256, 65_535]);
                padded(number, random)
            }
            Field::Time if !random.once_in(3) => Vec::new(),
            Field::Time => format!("{:016x}", time(random)).into_bytes(),
            Field::Lo if !random.once_in(3) => Vec::new(),
            Field::Lo | Field::GivenLo => random.pick(&["in", "ex", "a", "IN", "i", "Zz"]).into(),
            Field::Prefix => {
                let octets = random.below(5);
                octets_of(octets, random)
            }
            Field::Text => text(random),
        }
    }
}

/// A time near [`NOON`], or anywhere.
pub fn time(random: &mut Random) -> u64 {
    match random.below(6) {
        0 => random.pick(&[1, (1 << 63) - 1, 1 << 62]),
        1 => (random.number() >> 1).max(1),
        _ => NOON + random.below(8) as u64,
    }
}

fn address(random: &mut Random) -> Vec<u8> {
    if !random.once_in(4) {
        return octets_of(4, random);
    }
    let groups: Vec<_> = (0..8)
        .map(|_| match random.below(4) {
            0 => format!("{:x}", random.below(0x10000)),
            1 => format!("{:04X}", random.below(0x10000)),
            2 => format!("{:02x}", random.below(0x100)),
            _ => "0".to_owned(),
        })
        .collect();
    groups.join("_").into_bytes()
}

fn octets_of(count: usize, random: &mut Random) -> Vec<u8> {
    let octets: Vec<_> = (0..count)
        .map(|_| match random.below(8) {
            0 => random.byte().to_string(),
            _ => random.pick(&OCTETS).to_string(),
        })
        .collect();
    octets.join(".").into_bytes()
}

fn number(most: u32, random: &mut Random) -> Vec<u8> {
    let number = match random.below(6) {
        0 | 1 => 0,
        2 => 1,
        3 => most,
        _ => (random.number() % (u64::from(most) + 1)) as u32,
    };
    padded(number, random)
}

fn padded(number: u32, random: &mut Random) -> Vec<u8> {
    match random.below(8) {
        0 => format!("{number:010}").into_bytes(),
        1 => format!("{number:06}").into_bytes(),
        _ => number.to_string().into_bytes(),
    }
}

/// Text with good escapes.
pub fn text(random: &mut Random) -> Vec<u8> {
    let length = match random.below(8) {
        0 => random.pick(&[126, 127, 128, 129, 253, 254, 255]),
        1 => 0,
        _ => random.below(12),
    };
    let mut text = Vec::new();
    for _ in 0..length {
        match random.below(16) {
            0 => text.extend(format!("\\{:03o}", random.byte()).into_bytes()),
            1 => text.push(random.pick(b" \t\r\0\x7f\xff")),
            2 => match random.byte() {
                b':' | b'\n' | b'\\' => text.push(b'x'),
                byte => text.push(byte),
            },
            _ => text.push(random.pick(b"abcABC .%=+*019")),
        }
    }
    text
}
