//! Sources to be joined.

use crate::family::Family;
use crate::lines::{self, Mood};
use crate::random::Random;
use crate::{sources, zones};

/// Parts of a joined source: mostly sources by themselves, each but the last
/// ended; now and then one source in pieces, or a part cut short.
pub fn several(random: &mut Random) -> Vec<Vec<u8>> {
    let count = random.within(2, 5);
    if random.once_in(10) {
        return pieces(&one(random), count, random);
    }
    let mut parts: Vec<_> = (0..count).map(|_| one(random)).collect();
    if random.once_in(12) {
        // The same lines once more.
        parts[count - 1] = parts[random.below(count - 1)].clone();
    }
    let (last, before) = parts.split_last_mut().expect("two parts or more");
    before.iter_mut().for_each(close);
    if random.once_in(2) {
        close(last);
    }
    if random.once_in(12) {
        let cut = random.below(count - 1);
        shorten(&mut parts[cut], random);
    }
    parts
}

/// Whether each part but the last is empty or ends in byte 10, so that every
/// line stands in one part.
pub fn are_ended(parts: &[&[u8]]) -> bool {
    let before = &parts[..parts.len().saturating_sub(1)];
    let mut lasts = before.iter().filter_map(|part| part.last());
    lasts.all(|&byte| byte == b'\n')
}

/// How many byte 10s a part has.
pub fn line_ends(part: &[u8]) -> u64 {
    part.iter().filter(|&&byte| byte == b'\n').count() as u64
}

/// A source; three in four have no bad line, so that refusals come in every
/// part.
fn one(random: &mut Random) -> Vec<u8> {
    match random.below(20) {
        0..=4 => sources::of_lines(Mood::Good, random),
        5..=7 => sources::crowded(random),
        8..=10 => zones::source(&Family::written(random), &zones::TIMES, random),
        11..=12 => sources::of_lines(Mood::Borderline, random),
        13..=14 => {
            let mut damaged = sources::of_lines(Mood::Good, random);
            sources::damage(&mut damaged, random);
            damaged
        }
        15 => sources::noise(random),
        16 => lines::of_length(random),
        17 => Vec::new(),
        _ => ignored(random),
    }
}

/// Lines without records.
fn ignored(random: &mut Random) -> Vec<u8> {
    let count = random.within(1, 6);
    let lines = (0..count).map(|_| random.pick(&["\n", "\n", "#!\n", "-+a\r\n", " \t\n"]));
    lines.collect::<String>().into_bytes()
}

/// Ends the last line, where there is one.
fn close(part: &mut Vec<u8>) {
    if part.last().is_some_and(|&byte| byte != b'\n') {
        part.push(b'\n');
    }
}

/// Takes bytes from the end, so that the last line goes on in the next part.
fn shorten(part: &mut Vec<u8>, random: &mut Random) {
    part.truncate(random.below(part.len() + 1));
    if part.last() == Some(&b'\n') {
        part.pop();
    }
    if random.once_in(4) {
        // It ends no line.
        part.push(b'\r');
    }
}

/// A source in pieces, cut at ends of lines or anywhere.
fn pieces(source: &[u8], count: usize, random: &mut Random) -> Vec<Vec<u8>> {
    let anywhere = random.once_in(3);
    let mut rest = source;
    let mut parts = Vec::new();
    for _ in 1..count {
        let mut cut = random.below(rest.len() + 1);
        if !anywhere {
            let end = rest[..cut].iter().rposition(|&byte| byte == b'\n');
            cut = end.map_or(0, |end| end + 1);
        }
        let (part, behind) = rest.split_at(cut);
        parts.push(part.to_vec());
        rest = behind;
    }
    parts.push(rest.to_vec());
    parts
}

#[cfg(test)]
mod tests {
    use super::*;

    #[test]
    fn most_parts_are_ended_and_good() {
        let (mut ended, mut good, mut all) = (0, 0, 0);
        for case in 0..2_000 {
            let parts = several(&mut Random::of_case(7, case));
            assert!((2..=5).contains(&parts.len()));
            let parts: Vec<&[u8]> = parts.iter().map(Vec::as_slice).collect();
            ended += usize::from(are_ended(&parts));
            let accepted = parts
                .iter()
                .filter(|part| reference::records(part, 1).is_ok());
            good += accepted.count();
            all += parts.len();
        }
        assert!((1_700..1_990).contains(&ended), "{ended}");
        assert!(
            (all * 2 / 3..all * 9 / 10).contains(&good),
            "{good} of {all}"
        );
    }
}
