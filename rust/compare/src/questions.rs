//! Questions that are likely to meet the records they are put to.

use crate::fields::{time, NOON, OCTETS};
use crate::hostile;
use crate::names;
use crate::random::Random;
use crate::reading::Asked;
use crate::walk;

/// Clients that prefixes of several lengths fit.
const CLIENTS: [[u8; 4]; 5] = [
    [10, 1, 168, 192],
    [10, 1, 168, 0],
    [10, 1, 0, 0],
    [10, 0, 0, 0],
    [192, 168, 0, 1],
];

/// A question about these record bytes, whatever they are.
pub fn about(records: &[u8], random: &mut Random) -> Asked {
    let found = walk::records(records);
    let keys: Vec<_> = found.iter().map(|found| found.key).collect();
    Asked {
        name: name(&keys, random),
        record_type: match random.below(3) {
            0 => random.pick(&[1, 2, 5, 6, 12, 15, 16, 28, 33]),
            1 if random.once_in(4) => random.number() as u16,
            _ => 255,
        },
        client: client(random),
        moment: moment(random),
    }
}

fn name(keys: &[&[u8]], random: &mut Random) -> Vec<u8> {
    let mut name = match random.below(8) {
        0 => names::wire(random),
        _ if keys.is_empty() => names::wire(random),
        _ => random.pick(keys).to_vec(),
    };
    // A location's key is no name.
    if name.starts_with(b"\0%") {
        name.truncate(1);
    }
    match random.below(10) {
        // Below the key, where its wildcards answer.
        0..=2 => {
            for _ in 0..random.within(1, 3) {
                let label = names::label(random);
                name.splice(..0, label.iter().copied());
                name.insert(0, label.len() as u8);
            }
        }
        // Above it.
        3 => {
            let length = usize::from(*name.first().unwrap_or(&0));
            if length > 0 && length + 1 < name.len() {
                name.drain(..=length);
            }
        }
        // The first label grown by what looks like more labels.
        4 => {
            let label = random.within(1, 3);
            name.splice(..0, std::iter::repeat_n(b'z', label));
            let first = name.get(label).map_or(0, |length| usize::from(*length));
            name.insert(0, (label + first + 1).min(63) as u8);
        }
        _ => (),
    }
    if random.once_in(2) {
        for byte in name.iter_mut().filter(|byte| byte.is_ascii_alphabetic()) {
            if random.once_in(2) {
                *byte ^= 0x20;
            }
        }
    }
    if random.once_in(40) {
        match random.below(6) {
            0 => name.clear(),
            1 => drop(name.pop()),
            2 => name.push(0),
            3 => name.insert(0, random.pick(&[63, 64, 192, 255])),
            4 => name = hostile::of_length(random.pick(&[254, 255, 256, 257])),
            _ => {
                let length = random.below(300);
                name = random.bytes(length);
            }
        }
    }
    name
}

/// A client, seldom with an address of no good length.
pub fn client(random: &mut Random) -> Vec<u8> {
    let length = match random.below(60) {
        0 => random.pick(&[0, 1, 3, 5, 8, 15, 17, 32]),
        1..=9 => 16,
        10..=20 => 4,
        _ => return random.pick(&CLIENTS).to_vec(),
    };
    (0..length).map(|_| random.pick(&OCTETS)).collect()
}

/// A moment, mostly around [`NOON`].
pub fn moment(random: &mut Random) -> u64 {
    match random.below(60) {
        0 => random.pick(&[1 << 63, u64::MAX, (1 << 63) + 1]),
        1 => random.pick(&[0, 1, (1 << 63) - 1]),
        2..=9 => time(random) - random.below(2) as u64,
        10..=19 => NOON - random.pick(&[3_599, 3_600, 3_601, 3_607, 1_000, 100]),
        _ => NOON + random.below(10) as u64 - 1,
    }
}
