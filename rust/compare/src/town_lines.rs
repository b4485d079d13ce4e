//! Lines of several towns, and other towns' lines changed.

use crate::lines::{field_from_end, with_field};
use crate::random::Random;

/// Good lines, each with records.
pub type Lines = Vec<Vec<u8>>;

/// Locations, some of them easily taken for another.
pub const LOS: [&str; 6] = ["in", "ex", "i", "IN", "im", "a"];

/// Whether this is a `%` line.
pub fn is_place(line: &[u8]) -> bool {
    line.starts_with(b"%")
}

/// Whether a line, no `%` line, is another town's.
pub fn is_foreign(line: &[u8], location: Option<[u8; 2]>) -> bool {
    let lo = field_from_end(line, 0);
    !lo.is_empty() && Some(stored(lo)) != location
}

/// A location's letters as records have them.
fn stored(lo: &[u8]) -> [u8; 2] {
    [lo[0], *lo.get(1).unwrap_or(&0)]
}

/// Whether lines have the same `%` lines and the same others but for other
/// towns', both in the same order.
pub fn are_alike(first: &[Vec<u8>], second: &[Vec<u8>], location: Option<[u8; 2]>) -> bool {
    let places = |lines: &[Vec<u8>]| -> Lines {
        let places = lines.iter().filter(|line| is_place(line));
        places.cloned().collect()
    };
    let counts = |line: &&Vec<u8>| !is_place(line) && !is_foreign(line, location);
    places(first) == places(second) && first.iter().filter(counts).eq(second.iter().filter(counts))
}

/// The same lines but for other towns', with these ones more: some of those
/// there were left out or changed, and the `%` lines elsewhere among the rest.
pub fn twin(
    lines: &[Vec<u8>],
    more: Lines,
    location: Option<[u8; 2]>,
    random: &mut Random,
) -> Lines {
    let (places, mut others): (Lines, Lines) = lines.iter().cloned().partition(|l| is_place(l));
    others.retain(|line| !is_foreign(line, location) || random.once_in(2));
    for line in others.iter_mut().filter(|line| is_foreign(line, location)) {
        if random.once_in(2) {
            *line = foreign(line, location, random);
        }
    }
    let more = more.into_iter().filter(|line| !is_place(line));
    for line in more {
        let line = foreign(&line, location, random);
        insert(&mut others, line, random);
    }
    mixed(places, others, random)
}

/// Lines of both sorts mixed anew, each sort in its order.
fn mixed(places: Lines, others: Lines, random: &mut Random) -> Lines {
    let mut mixed = others;
    let mut least = 0;
    for line in places {
        let place = random.within(least, mixed.len());
        mixed.insert(place, line);
        least = place + 1;
    }
    mixed
}

/// The line as another town's.
fn foreign(line: &[u8], location: Option<[u8; 2]>, random: &mut Random) -> Vec<u8> {
    let others = LOS
        .iter()
        .filter(|lo| Some(stored(lo.as_bytes())) != location);
    let others: Vec<_> = others.collect();
    with_field(line, 0, random.pick(&others).as_bytes())
}

/// The lines with one or two of them changed in any way.
pub fn disturbed(lines: &[Vec<u8>], random: &mut Random) -> Lines {
    let mut lines = lines.to_vec();
    for _ in 0..random.within(1, 2) {
        let Some(last) = lines.len().checked_sub(1) else {
            break;
        };
        let place = random.below(last + 1);
        match random.below(5) {
            0 | 1 => drop(lines.remove(place)),
            2 => lines.swap(place, random.below(last + 1)),
            3 if !is_place(&lines[place]) => {
                let lo = random.pick(&["", "in", "ex", "i"]);
                lines[place] = with_field(&lines[place], 0, lo.as_bytes());
            }
            _ => {
                let places = (0..=last).filter(|&at| is_place(&lines[at]));
                let places: Vec<_> = places.collect();
                if let [first, .., second] = places[..] {
                    lines.swap(first, second);
                }
            }
        }
    }
    lines
}

/// The lines as a source; where `plain` isn't set, with blanks at their ends
/// and lines without records among them.
pub fn source(lines: &[Vec<u8>], plain: bool, random: &mut Random) -> Vec<u8> {
    let mut source = Vec::new();
    for line in lines {
        if !plain && random.once_in(6) {
            source.extend(random.pick(&["\n", "# :::in\n", "-\n", " \t\n"]).as_bytes());
        }
        source.extend(line);
        if !plain && random.once_in(6) {
            source.extend(random.pick(&[" ", "\t", "  \t"]).as_bytes());
        }
        source.push(b'\n');
    }
    if !plain && random.once_in(2) {
        source.pop();
    }
    source
}

/// Puts a line somewhere among the others.
pub fn insert(lines: &mut Lines, line: Vec<u8>, random: &mut Random) {
    lines.insert(random.below(lines.len() + 1), line);
}

#[cfg(test)]
mod tests {
    use super::*;
    use crate::crowd::Crowd;

    #[test]
    fn towns_are_good_and_twins_too() {
        for case in 0..2_000 {
            let random = &mut Random::of_case(8, case);
            let crowd = Crowd::new(random);
            let lines = crowd.town_lines(random);
            let twin = twin(&lines, crowd.lines(random), Some(*b"in"), random);
            for lines in [&disturbed(&lines, random), &lines, &twin] {
                let source = source(lines, false, random);
                assert!(reference::records(&source, 1).is_ok(), "{source:?}");
            }
        }
    }
}
