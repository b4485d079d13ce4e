//! Record bytes that no compiling wrote, built field by field.

use crate::fields::{time, OCTETS};
use crate::names;
use crate::random::Random;

/// How seldom a field is at or over its limit.
const SELDOM: usize = 60;

/// A stream of some records. About half of them pass the reader.
pub fn stream(random: &mut Random) -> Vec<u8> {
    if random.once_in(SELDOM) {
        let length = random.below(60);
        return random.bytes(length);
    }
    let mut bytes = Vec::new();
    if random.once_in(2) {
        // A zone of the root, so that most names are ours.
        for record_type in [2, 6] {
            let fixed = [0, record_type, b'=', 0, 0, 0, 5, 0, 0, 0, 0, 0, 0, 0, 0];
            push(&mut bytes, b"\0", &fixed, random);
        }
    }
    for _ in 0..random.pick(&[0, 1, 2, 3, 5, 8, 12]) {
        let (key, data) = match random.below(5) {
            0 => (location_key(random), lo(random).to_vec()),
            _ => resource(random),
        };
        push(&mut bytes, &key, &data, random);
    }
    if random.once_in(SELDOM) {
        let length = random.within(1, 9);
        bytes.extend(random.bytes(length));
    }
    bytes
}

/// Puts a record behind the others, seldom with lengths that do not fit.
pub fn push(bytes: &mut Vec<u8>, key: &[u8], data: &[u8], random: &mut Random) {
    let mut key_length = key.len() as u32;
    let mut data_length = data.len() as u32;
    if random.once_in(SELDOM) {
        match random.below(6) {
            0 => key_length = key_length.wrapping_add(random.pick(&[1, u32::MAX])),
            1 => data_length = data_length.wrapping_add(random.pick(&[1, u32::MAX])),
            2 => key_length = random.pick(&[u32::MAX, u32::MAX - 8, 1 << 31, 1 << 24]),
            3 => data_length = random.pick(&[u32::MAX, u32::MAX - 8, 1 << 31, 1 << 24]),
            // The sum is right if it is taken modulo 2^32.
            _ => {
                let shift = random.number() as u32;
                key_length = key_length.wrapping_sub(shift);
                data_length = data_length.wrapping_add(shift);
            }
        }
    }
    bytes.extend(key_length.to_le_bytes());
    bytes.extend(data_length.to_le_bytes());
    bytes.extend(key);
    bytes.extend(data);
}

/// A whole record without location and time, and with a byte of data.
pub fn plain(key: &[u8], record_type: u8, wildcard: bool) -> Vec<u8> {
    let flag = if wildcard { b'*' } else { b'=' };
    let mut record = (key.len() as u32).to_le_bytes().to_vec();
    record.extend(16u32.to_le_bytes());
    record.extend(key);
    record.extend([0, record_type, flag]);
    record.extend([0, 0, 0, 5, 0, 0, 0, 0, 0, 0, 0, 0, b'~']);
    record
}

fn location_key(random: &mut Random) -> Vec<u8> {
    let mut key = b"\0%".to_vec();
    let length = match random.once_in(SELDOM) {
        true => random.within(4, 7),
        false => random.below(5),
    };
    key.extend((0..length).map(|_| random.pick(&OCTETS)));
    if random.once_in(SELDOM) {
        key[1] = random.pick(b"\0#&$%\x01");
    }
    key
}

/// The two bytes of a location, seldom one byte more or less.
fn lo(random: &mut Random) -> Vec<u8> {
    if random.once_in(SELDOM) {
        let odd: [&[u8]; 10] = [
            b"", b"a", b"abc", b"\0\0", b"\0a", b"1a", b"a1", b"@a", b"a[", b"\xe1a",
        ];
        return random.pick(&odd).to_vec();
    }
    let good: [&[u8]; 6] = [b"in", b"ex", b"a\0", b"IN", b"i\0", b"Zz"];
    random.pick(&good).to_vec()
}

fn resource(random: &mut Random) -> (Vec<u8>, Vec<u8>) {
    let flag = match random.once_in(SELDOM) {
        true => random.byte(),
        false => random.pick(b"===>>**+"),
    };
    let key = key(matches!(flag, b'=' | b'>'), random);
    let mut data = random
        .pick(&[1u16, 1, 2, 6, 16, 28, 255, 0, 252, 65_535])
        .to_be_bytes()
        .to_vec();
    data.push(flag);
    if matches!(flag, b'>' | b'+') {
        data.extend(lo(random));
    }
    let ttl = match random.once_in(SELDOM) {
        true => random.pick(&[u32::MAX, 1 << 31, (1 << 31) - 1]),
        false => random.pick(&[0, 0, 1, 2, 3_600, 86_400, (1 << 31) - 1]),
    };
    let time = match random.below(SELDOM) {
        0 => random.pick(&[1 << 63, u64::MAX, (1 << 63) - 1]),
        1..=30 => 0,
        _ => time(random),
    };
    data.extend(ttl.to_be_bytes());
    data.extend(time.to_be_bytes());
    let length = random.pick(&[0, 0, 1, 4, 16, 40]);
    data.extend(random.bytes(length));
    if random.once_in(SELDOM) {
        data.truncate(random.below(18));
    }
    (key, data)
}

fn key(ordinary: bool, random: &mut Random) -> Vec<u8> {
    let mut key = names::wire(random);
    if !random.once_in(SELDOM) {
        key.make_ascii_lowercase();
    }
    let starred = key.starts_with(b"\x01*");
    if ordinary && starred && !random.once_in(SELDOM) {
        key.drain(..2);
    }
    if random.once_in(SELDOM) {
        match random.below(7) {
            0 => key.clear(),
            1 => drop(key.pop()),
            2 => key.push(0),
            3 => key[0] = random.pick(&[63, 64, 65, 128, 192, 255]),
            4 => {
                let place = random.below(key.len());
                key[place] = random.byte();
            }
            _ => {
                let length = random.pick(&[252, 253, 254, 255, 256]);
                key = of_length(length);
            }
        }
    }
    key
}

/// A name of exactly this length on the wire.
pub fn of_length(length: usize) -> Vec<u8> {
    let mut key = Vec::new();
    while length - key.len() > 1 {
        let left = length - key.len() - 1;
        let mut label = left.min(64) - 1;
        if left - label - 1 == 1 {
            label -= 1;
        }
        key.push(label as u8);
        key.resize(key.len() + label, b'k');
    }
    key.push(0);
    key
}

/// Damages record bytes a little.
pub fn damage(bytes: &mut Vec<u8>, random: &mut Random) {
    let place = random.below(bytes.len() + 1);
    match random.below(6) {
        0 => bytes.truncate(place),
        1 => bytes.insert(place, random.byte()),
        2 => bytes.extend_from_within(place..),
        3 => {
            let end = (place + random.below(9)).min(bytes.len());
            bytes.drain(place..end);
        }
        _ => {
            if let Some(byte) = bytes.get_mut(place) {
                *byte = match random.below(3) {
                    0 => random.byte(),
                    1 => *byte ^ 1 << random.below(8),
                    _ => byte.wrapping_add(random.pick(&[1, 255, 32])),
                };
            }
        }
    }
}
