//! Sources and streams of zones, delegations and what looks like them.

use crate::family::{wire, Family};
use crate::fields::NOON;
use crate::hostile;
use crate::random::Random;

/// Longest name, on the wire, that a hostmaster and a star fit in front of.
const LONGEST_WITH_CONTACT: usize = 242;
/// Longest key of a wildcard.
const LONGEST_WILDCARD: usize = 253;

/// Times of lines around [`NOON`].
pub const TIMES: [u64; 4] = [NOON, NOON + 1, NOON + 2, NOON + 3];

/// A good source about the names of a family, with these times.
pub fn source(family: &Family, times: &[u64], random: &mut Random) -> Vec<u8> {
    let mut source = random.pick(&[".\n", ".b\n", ".b\n.s.b\n", ""]).to_owned();
    for _ in 0..count(random) {
        let labels = family.name(random);
        let length = wire(labels).len();
        let mut name = String::from_utf8(labels.join(&b'.')).expect("letters");
        if length <= LONGEST_WILDCARD && random.once_in(6) {
            name = format!("*.{name}");
        }
        let contact = length <= LONGEST_WITH_CONTACT;
        let end = ending(times, random);
        let number = random.below(256);
        source += &match random.below(16) {
            0..=2 if contact => format!(".{name}::n{number}.x:{end}\n"),
            0..=2 => format!("Z{name}:m:r::::::{end}\n&{name}::n{number}.x:{end}\n"),
            3..=5 => format!("&{name}::n{number}.x:{end}\n"),
            6 if contact => format!("&{name}:1.2.3.{number}:a:{end}\n"),
            6 | 7 => format!("Z{name}:m{number}:r::::::{end}\n"),
            8 => format!("'{name}:{number}:{end}\n"),
            9 => format!("C{name}:c{number}:{end}\n"),
            10 | 11 => {
                let lo = random.pick(&["in", "ex"]);
                let prefix = random.pick(&["", "", "10", "10.1", "192"]);
                format!("%{lo}:{prefix}\n")
            }
            _ => format!("+{name}:1.2.3.{number}:{end}\n"),
        };
    }
    source.into_bytes()
}

/// How many lines or records: mostly so few that much is missing.
fn count(random: &mut Random) -> usize {
    match random.once_in(100) {
        true => random.within(50, 200),
        false => random.within(1, 14),
    }
}

/// The last three fields: seldom a time or a location.
fn ending(times: &[u64], random: &mut Random) -> String {
    let ttl = random.pick(&["", "", "0", "5"]);
    let time = match random.once_in(5) {
        true => format!("{:016x}", random.pick(times)),
        false => String::new(),
    };
    let lo = random.pick(&["", "", "", "", "in", "ex"]);
    format!("{ttl}:{time}:{lo}")
}

/// Record bytes about the names of a family. Most pass the reader.
pub fn stream(family: &Family, random: &mut Random) -> Vec<u8> {
    let mut bytes = Vec::new();
    for _ in 0..count(random) {
        if random.once_in(8) {
            let lo = random.pick(&[b"in", b"ex"]);
            let prefix: &[u8] = random.pick(&[&b""[..], b"", b"\x0a", b"\x0a\x01", b"\xc0"]);
            hostile::push(&mut bytes, &[b"\0%", prefix].concat(), lo, random);
            continue;
        }
        let key = wire(family.name(random));
        let starred = key.starts_with(b"\x01*");
        let wildcard = starred || (key.len() <= LONGEST_WILDCARD && random.once_in(5));
        let lo: &[u8] = match random.below(6) {
            0 => random.pick(&[b"in", b"ex"]),
            _ => b"",
        };
        let flag = match (wildcard, lo.is_empty()) {
            (false, true) => b'=',
            (false, false) => b'>',
            (true, true) => b'*',
            (true, false) => b'+',
        };
        let time = match random.once_in(5) {
            true => random.pick(&TIMES),
            false => 0,
        };
        let mut data = random
            .pick(&[2u16, 2, 2, 6, 6, 6, 1, 1, 1, 16, 512, 1_536, 65_535])
            .to_be_bytes()
            .to_vec();
        data.push(flag);
        data.extend(lo);
        data.extend(random.pick(&[0u32, 5, 5, 259_200]).to_be_bytes());
        data.extend(time.to_be_bytes());
        let length = random.below(4);
        data.extend(random.bytes(length));
        hostile::push(&mut bytes, &key, &data, random);
    }
    bytes
}

#[cfg(test)]
mod tests {
    use super::*;

    #[test]
    fn sources_are_good() {
        for case in 0..2_000 {
            let random = &mut Random::of_case(5, case);
            let family = Family::written(random);
            let source = source(&family, &TIMES, random);
            assert!(reference::records(&source, 1).is_ok(), "{source:?}");
        }
    }

    #[test]
    fn most_streams_are_good() {
        let mut good = 0;
        for case in 0..1_000 {
            let random = &mut Random::of_case(6, case);
            let family = Family::of_any_bytes(random);
            let stream = stream(&family, random);
            let mut records = reference::stream::Stream::new(&stream);
            good += usize::from(records.all(|record| record.is_ok()));
        }
        assert!(good > 700, "{good}");
    }
}
