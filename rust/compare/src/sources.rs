//! Sources: good ones, borderline ones, damaged ones and noise.

use crate::fields::NOON;
use crate::lines::{self, Mood};
use crate::random::Random;

/// A source of some lines.
pub fn of_lines(mood: Mood, random: &mut Random) -> Vec<u8> {
    let count = match random.once_in(500) {
        true => 300,
        false => random.pick(&[1, 2, 3, 4, 6, 9, 14]),
    };
    let mut lines: Vec<_> = (0..count).map(|_| lines::any(mood, random)).collect();
    if !random.once_in(3) {
        // The root's zone makes most names ours.
        lines.insert(random.below(2).min(lines.len()), b".".to_vec());
    }
    let mut source = lines.join(&b'\n');
    if random.once_in(2) {
        source.push(b'\n');
    }
    source
}

/// A good source whose records crowd around few names, so that levels,
/// locations and times decide between them.
pub fn crowded(random: &mut Random) -> Vec<u8> {
    let mut source = random.pick(&[".\n", ".b\n", ".b\n.\n", ""]).to_owned();
    for _ in 0..random.within(4, 20) {
        let name = random.pick(&["a.b", "A.B", "b", "*.b", "*.a.b", "*", "x.a.b", "*.*.b", ""]);
        let lo = random.pick(&["", "", "in", "ex", "a"]);
        let ttl = random.pick(&["", "0", "0", "5"]);
        let time = match random.once_in(3) {
            true => format!("{:016x}", NOON + random.below(4) as u64),
            false => String::new(),
        };
        let ending = format!("{ttl}:{time}:{lo}");
        let number = random.below(256);
        source += &match random.below(8) {
            0 | 1 => {
                let lo = random.pick(&["in", "ex", "a"]);
                let prefix = random.pick(&["", "10", "10.1", "10.1.168", "10.1.168.192", "192"]);
                format!("%{lo}:{prefix}\n")
            }
            2 => format!("'{name}:{number}:{ending}\n"),
            3 => format!("C{name}:{number}.c:{ending}\n"),
            4 if random.once_in(2) => format!("&{name}::{number}.d:{ending}\n"),
            4 => format!(".{name}::{number}.d:{ending}\n"),
            _ => format!("+{name}:1.2.3.{number}:{ending}\n"),
        };
    }
    source.into_bytes()
}

/// A good source of classic lines alone: no IPv6 address, no service.
pub fn classic(count: usize, random: &mut Random) -> Vec<u8> {
    let mut source = Vec::new();
    for _ in 0..count {
        let line = lines::any(Mood::Good, random);
        let second_field = line.split(|&byte| byte == b':').nth(1);
        let ipv6 = second_field.is_some_and(|field| field.contains(&b'_'));
        let has_address = matches!(line.first(), Some(b'.' | b'&' | b'=' | b'+' | b'@'));
        if line.first() != Some(&b'S') && !(has_address && ipv6) {
            source.extend(line);
            source.push(b'\n');
        }
    }
    source
}

/// Damages a source a little.
pub fn damage(source: &mut Vec<u8>, random: &mut Random) {
    for _ in 0..random.within(1, 3) {
        let place = random.below(source.len() + 1);
        match random.below(9) {
            0 | 1 => flip(source, place, random),
            2 => source.insert(place, random.pick(b":.\\\n _*0a\xff")),
            3 => source.truncate(place),
            4 => {
                let end = (place + random.below(6)).min(source.len());
                source.drain(place..end);
            }
            5 => join(source),
            6 => repeat_line(source, random),
            7 => {
                if let Some(place) = source.iter().position(|&byte| byte == b'\n') {
                    source.insert(place, b'\r');
                }
            }
            _ => {
                let colon = source.iter().rposition(|&byte| byte == b':');
                source.insert(colon.unwrap_or(place), b':');
            }
        }
    }
}

fn flip(bytes: &mut [u8], place: usize, random: &mut Random) {
    if let Some(byte) = bytes.get_mut(place) {
        *byte ^= 1 << random.below(8);
    }
}

/// Takes away the first end of a line.
fn join(source: &mut Vec<u8>) {
    if let Some(place) = source.iter().position(|&byte| byte == b'\n') {
        source.remove(place);
    }
}

fn repeat_line(source: &mut Vec<u8>, random: &mut Random) {
    let lines: Vec<_> = source.split(|&byte| byte == b'\n').collect();
    let line = random.pick(&lines).to_vec();
    source.push(b'\n');
    source.extend(line);
}

/// Bytes without sense, some more like a source than others.
pub fn noise(random: &mut Random) -> Vec<u8> {
    let length = random.below(80);
    let any = random.once_in(3);
    (0..length)
        .map(|_| match any {
            true => random.byte(),
            false => random.pick(b"+=.&@S'^CZ:%#-:::.01289abf_*\\ \n\n\n"),
        })
        .collect()
}
