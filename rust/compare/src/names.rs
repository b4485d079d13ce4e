//! Names, as sources write them and on the wire.

use crate::random::Random;

/// Few labels, so that names made apart often meet.
const LABELS: [&str; 18] = [
    "a",
    "b",
    "c",
    "A",
    "B",
    "ns",
    "mx",
    "srv",
    "*",
    "www",
    "Host",
    "hostmaster",
    "in-addr",
    "ip6",
    "arpa",
    "1",
    "**",
    "_sip",
];

/// Bytes that are no letters and yet may stand in a name.
const ODD: &[u8] = b"!\"#$%&'()*+,-/;<=>?@[]^_`{|}~";

/// A good name.
pub fn good(random: &mut Random) -> Vec<u8> {
    match random.below(24) {
        0 => Vec::new(),
        1 => b".".to_vec(),
        2 => of_wire_length(random.within(3, 255), random),
        3 => {
            let labels = random.within(1, 4);
            let labels: Vec<_> = (0..labels).map(|_| odd_label(random)).collect();
            labels.join(&b'.')
        }
        4 => {
            let labels = random.pick(&[20, 125, 126, 127]);
            let star = if random.once_in(2) { "*" } else { "d" };
            let deep = [star].into_iter().chain(std::iter::repeat("d"));
            deep.take(labels).collect::<Vec<_>>().join(".").into_bytes()
        }
        _ => {
            let mut labels = Vec::new();
            if random.once_in(6) {
                labels.push("*");
            }
            for _ in 0..random.within(1, 3) {
                labels.push(random.pick(&LABELS));
            }
            let mut name = labels.join(".").into_bytes();
            if random.once_in(10) {
                name.push(b'.');
            }
            name
        }
    }
}

/// A good label.
pub fn label(random: &mut Random) -> Vec<u8> {
    match random.below(12) {
        0 => b"*".to_vec(),
        1 => vec![b'x'; 63],
        2 => odd_label(random),
        _ => random.pick(&LABELS).as_bytes().to_vec(),
    }
}

fn odd_label(random: &mut Random) -> Vec<u8> {
    let length = random.within(1, 9);
    (0..length).map(|_| random.pick(ODD)).collect()
}

/// A name with exactly so many bytes on the wire, from 3 on; above 255 it is
/// too long.
pub fn of_wire_length(length: usize, random: &mut Random) -> Vec<u8> {
    let mut name = Vec::new();
    let mut left = length - 1;
    while left > 0 {
        let mut label = left.min(64) - 1;
        // One byte left over could be no label.
        if left - label - 1 == 1 {
            label -= 1;
        }
        if !name.is_empty() {
            name.push(b'.');
        }
        let letter = random.pick(b"abXY");
        name.extend(std::iter::repeat_n(letter, label));
        left -= label + 1;
    }
    name
}

/// A name at or over the limits.
pub fn borderline(random: &mut Random) -> Vec<u8> {
    let length = random.pick(&[
        186, 187, 188, 189, 190, 243, 244, 245, 246, 250, 251, 252, 253, 254, 255, 256, 257, 300,
    ]);
    match random.below(10) {
        0 => vec![b'l'; random.within(62, 65)],
        1 => [&vec![b'l'; random.within(62, 65)], &b".b"[..]].concat(),
        2 => random
            .pick(&["..", ".a", "a..", "a..b", "...", "a.b.."])
            .into(),
        3 => {
            let mut name = good(random);
            let place = random.below(name.len() + 1);
            name.insert(
                place,
                random.pick(&[0, 9, 31, 32, 33, 92, 126, 127, 128, 255]),
            );
            name
        }
        4 => [of_wire_length(length, random), b".".to_vec()].concat(),
        5 => [b"*.".to_vec(), of_wire_length(length - 2, random)].concat(),
        _ => of_wire_length(length, random),
    }
}

/// A name on the wire: of the few labels, of any bytes, or of many labels.
pub fn wire(random: &mut Random) -> Vec<u8> {
    let mut wire = Vec::new();
    if random.once_in(24) {
        let labels = random.pick(&[2, 20, 125, 126, 127]);
        wire = b"\x01d".repeat(labels);
        wire.push(0);
        return wire;
    }
    for _ in 0..random.pick(&[0, 1, 1, 2, 2, 3, 4, 6]) {
        let label = if random.once_in(8) {
            let length = random.pick(&[1, 1, 2, 3, 62, 63]);
            random.bytes(length)
        } else {
            random.pick(&LABELS).as_bytes().to_vec()
        };
        if wire.len() + label.len() > 250 {
            break;
        }
        wire.push(label.len() as u8);
        wire.extend(label);
    }
    wire.push(0);
    wire
}

#[cfg(test)]
mod tests {
    use super::*;

    #[test]
    fn names_have_the_length_asked_for() {
        let mut random = Random::of_case(1, 1);
        for length in 3..300 {
            let name = of_wire_length(length, &mut random);
            assert_eq!(name.len() + 2, length);
            let labels = name.split(|&byte| byte == b'.');
            assert!(labels
                .map(<[u8]>::len)
                .all(|label| (1..=63).contains(&label)));
            let key = crate::hostile::of_length(length);
            assert_eq!(key.len(), length);
            let good = reference::name::is_wire_name(&key);
            assert_eq!(good, length <= 255, "{length}");
        }
    }

    #[test]
    fn good_names_are_good() {
        for case in 0..10_000 {
            let mut random = Random::of_case(3, case);
            let name = good(&mut random);
            assert!(reference::name::Name::parse(&name).is_some(), "{name:?}");
            assert!(reference::name::is_wire_name(&wire(&mut random)));
        }
    }
}
