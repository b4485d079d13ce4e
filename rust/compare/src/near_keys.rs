//! Names to be asked, and keys that are almost such a name or an ancestor of
//! it.

use crate::family::wire;
use crate::random::Random;
use crate::standing::starts;

/// Letters, and the bytes beside A and Z and 32 above them.
const BESIDE: &[u8] = b"az@[`{";
/// Bytes that may also be the length of a label, and others.
const LENGTHS: &[u8] = b"\x01\x02\x03\x01ab%*\0\xff";
/// Names of fewer bytes are changed at each place in turn.
const SHORT: usize = 12;
/// Lengths that are so much apart have the same lowest byte.
const TABLE: usize = 256;

/// A name without upper case.
pub fn name(random: &mut Random) -> Vec<u8> {
    let labels = match random.below(16) {
        0 => Vec::new(),
        1..=2 => (0..127).map(|_| label(BESIDE, 1, random)).collect(),
        // With these lengths, of 255 bytes.
        3 => [63, 61, 63, 63]
            .map(|length| label(BESIDE, length, random))
            .to_vec(),
        4..=8 => with_labels_inside(random),
        9..=11 => some(BESIDE, random),
        _ => some(LENGTHS, random),
    };
    wire(&labels)
}

fn label(bytes: &[u8], length: usize, random: &mut Random) -> Vec<u8> {
    (0..length).map(|_| random.pick(bytes)).collect()
}

fn some(bytes: &[u8], random: &mut Random) -> Vec<Vec<u8>> {
    let count = random.within(1, 4);
    let one = |_| {
        let length = random.within(1, 4);
        label(bytes, length, random)
    };
    (0..count).map(one).collect()
}

/// Labels, one of which holds what looks like labels.
fn with_labels_inside(random: &mut Random) -> Vec<Vec<u8>> {
    let mut inside = wire(&some(BESIDE, random));
    inside.pop();
    let front = random.below(3);
    inside.splice(..0, label(b"z\x01", front, random));
    let mut labels = some(LENGTHS, random);
    let place = random.below(labels.len() + 1);
    labels.insert(place, inside);
    labels
}

/// Keys near a name: it and its ancestors, its other ends, and what differs
/// from one of them by little.
pub fn keys(name: &[u8], random: &mut Random) -> Vec<Vec<u8>> {
    let starts = starts(name).expect("a name");
    let mut keys = Vec::new();
    for _ in 0..random.within(1, 3) {
        keys.push(name[random.pick(&starts)..].to_vec());
    }
    let ends = (0..name.len()).filter(|at| !starts.contains(at));
    let ends = ends.map(|at| &name[at..]);
    let ends: Vec<_> = ends.filter(|end| self::starts(end).is_some()).collect();
    if !ends.is_empty() {
        for _ in 0..random.within(1, 2) {
            keys.push(random.pick(&ends).to_vec());
        }
    }
    let target = match random.once_in(2) {
        true => name,
        false => &name[random.pick(&starts)..],
    };
    keys.extend(changed(target, random));
    for _ in 0..random.below(4) {
        let target = &name[random.pick(&starts)..];
        keys.push(restructured(target, random));
        keys.push(resized(target, random));
    }
    keys
}

/// The name with one byte of a label changed, at each place in turn; of a
/// long one at the first, the last, and some others.
fn changed(name: &[u8], random: &mut Random) -> Vec<Vec<u8>> {
    let starts = starts(name).expect("a name");
    let mut places: Vec<_> = (0..name.len()).filter(|at| !starts.contains(at)).collect();
    if let (SHORT.., [first, .., last]) = (name.len(), &places[..]) {
        places = vec![*first, *last, random.pick(&places), random.pick(&places)];
    }
    let change = |place: usize| {
        let mut key = name.to_vec();
        key[place] = other(key[place], random);
        key
    };
    places.into_iter().map(change).collect()
}

/// Another byte, and no upper case letter.
fn other(byte: u8, random: &mut Random) -> u8 {
    let near = [byte ^ 0x20, byte ^ 1, byte ^ 0x80, byte.wrapping_add(1)];
    let near: Vec<_> = near
        .into_iter()
        .filter(|byte| !byte.is_ascii_uppercase())
        .collect();
    random.pick(&near)
}

/// A key as long as the name, whose labels end elsewhere.
fn restructured(name: &[u8], random: &mut Random) -> Vec<u8> {
    let starts = starts(name).expect("a name");
    let mut key = name.to_vec();
    let [at, behind] = match starts.len() {
        1 => return key,
        count => {
            let place = random.below(count - 1);
            [starts[place], starts[place + 1]]
        }
    };
    let (length, next) = (key[at], key[behind]);
    match random.below(3) {
        // One label of two: only the first one's length differs.
        0 if next > 0 && length + next < 63 => key[at] = length + 1 + next,
        // The first one's last byte becomes the other's.
        1 if next > 0 && next < 63 && length > 1 => {
            key[at] -= 1;
            key[behind - 1] = next + 1;
        }
        // Two labels of one.
        _ if length > 2 => {
            let first = random.within(1, usize::from(length) - 2);
            key[at] = first as u8;
            key[at + 1 + first] = length - 1 - first as u8;
        }
        _ => (),
    }
    key
}

/// A key with a byte more or less in one label.
fn resized(name: &[u8], random: &mut Random) -> Vec<u8> {
    let starts = starts(name).expect("a name");
    let at = random.pick(&starts);
    let mut key = name.to_vec();
    match (random.once_in(2), key[at]) {
        (_, 0) | (true, 63) => (),
        (true, _) => {
            key[at] += 1;
            key.insert(at + 1, random.pick(b"\x01\x02az*"));
        }
        (false, 1) => drop(key.drain(at..at + 2)),
        (false, length) => {
            key[at] -= 1;
            key.remove(at + random.within(1, length.into()));
        }
    }
    key
}

/// A malformed key near a name.
pub fn malformed(name: &[u8], random: &mut Random) -> Vec<u8> {
    let mut key = name.to_vec();
    let last = key.len() - 1;
    match random.below(6) {
        0 if key.to_ascii_uppercase() != key => key.make_ascii_uppercase(),
        1 => key[last] = random.pick(&[1, 32, 64, 255]),
        2 => drop(key.pop()),
        3 => key.push(0),
        4 => key[0] = key[0].wrapping_add(random.pick(&[64, 128, 192])),
        // As long as the name by the lowest byte of its length, which it ends in.
        _ => {
            let more = wire(&vec![vec![b'm'; 63]; TABLE / 64]);
            key.splice(..0, more[..TABLE].iter().copied());
        }
    }
    key
}

#[cfg(test)]
mod tests {
    use super::*;

    #[test]
    fn keys_are_good_and_malformed_ones_are_not() {
        for case in 0..5_000 {
            let random = &mut Random::of_case(7, case);
            let name = name(random);
            for key in keys(&name, random) {
                let good = starts(&key).is_some() && key.to_ascii_lowercase() == key;
                assert!(good || key.len() == 256, "{name:?} {key:?}");
            }
            let key = malformed(&name, random);
            let good = starts(&key).is_some() && key.to_ascii_lowercase() == key;
            assert!(!good, "{name:?} {key:?}");
        }
    }

    #[test]
    fn another_byte_is_no_upper_case() {
        let random = &mut Random::of_case(8, 1);
        for byte in (0..=255).filter(|byte: &u8| !byte.is_ascii_uppercase()) {
            for _ in 0..20 {
                let other = other(byte, random);
                assert!(other != byte && !other.is_ascii_uppercase());
            }
        }
    }
}
