//! Two answers to a question from different records, or at different moments,
//! held to each other.

use crate::asking::Told;

/// What was told of some records.
#[derive(Clone, Copy)]
pub struct Heard<'a> {
    /// The records.
    pub records: &'a [u8],
    /// What was told.
    pub told: &'a Told,
}

/// Which lifetimes may differ.
#[derive(Clone, Copy, PartialEq, Eq)]
pub enum Lifetimes {
    /// None.
    Same,
    /// Those of records with ttl 0 and a time, the later ones shorter.
    Ending,
}

/// How two answers differ in more than places. For lifetimes the first is the
/// earlier.
pub fn difference(first: Heard<'_>, second: Heard<'_>, lifetimes: Lifetimes) -> Option<String> {
    let whole = |heard: Heard<'_>| (heard.told.outcome, heard.told.end, heard.told.list.len());
    if whole(first) != whole(second) {
        let (first, second) = (whole(first), whole(second));
        return Some(format!(
            "outcome, last number and records {first:?} and {second:?}"
        ));
    }
    let pairs = first.told.list.iter().zip(&second.told.list);
    let differs = |(one, other): (&[u64; 6], &[u64; 6])| {
        let ending = lifetimes == Lifetimes::Ending && is_ending(first.records, one);
        let lasts = one[2] == other[2] || (ending && one[2] > other[2]);
        let same = one[0] == other[0] && one[1] == other[1] && one[5] == other[5];
        !(same && lasts && data(first.records, one) == data(second.records, other))
    };
    pairs
        .enumerate()
        .find(|(_, pair)| differs(*pair))
        .map(|(ordinal, (one, other))| format!("ordinal {ordinal}: {one:?} and {other:?}"))
}

/// Whether a lifetime differs.
pub fn lifetimes_differ(first: &Told, second: &Told) -> bool {
    let mut pairs = first.list.iter().zip(&second.list);
    pairs.any(|(one, other)| one[2] != other[2])
}

/// The record data of an answer.
fn data<'a>(records: &'a [u8], &[_, _, _, place, length, _]: &[u64; 6]) -> Option<&'a [u8]> {
    records.get(place as usize..)?.get(..length as usize)
}

/// Whether the record has ttl 0 and a time, which stand right before its data.
fn is_ending(records: &[u8], &[_, _, _, place, _, _]: &[u64; 6]) -> bool {
    let before = records.get(..place as usize);
    match before.and_then(|before| before.last_chunk::<12>()) {
        Some(fixed) => fixed[..4] == [0; 4] && fixed[4..] != [0; 8],
        None => false,
    }
}

#[cfg(test)]
mod tests {
    use super::*;

    /// Ttl, time and one byte of data: of a record that ends, of one that
    /// doesn't, and of one with ttl 0 and no time.
    const ENDING: [u8; 13] = [0, 0, 0, 0, 0, 0, 0, 0, 0, 0, 0, 9, b'd'];
    const LASTING: [u8; 13] = [0, 0, 0, 5, 0, 0, 0, 0, 0, 0, 0, 9, b'd'];
    const TIMELESS: [u8; 13] = [0, 0, 0, 0, 0, 0, 0, 0, 0, 0, 0, 0, b'd'];

    fn told(record_type: u64, lifetime: u64) -> Told {
        Told {
            outcome: 3,
            list: vec![[0, record_type, lifetime, 12, 1, 3]],
            end: 18,
        }
    }

    fn agree(records: [&[u8]; 2], told: [&Told; 2], lifetimes: Lifetimes) -> bool {
        let heard = [0, 1].map(|which| Heard {
            records: records[which],
            told: told[which],
        });
        difference(heard[0], heard[1], lifetimes).is_none()
    }

    #[test]
    fn only_ending_lifetimes_may_shrink() {
        let [five, seven] = [&told(1, 5), &told(1, 7)];
        let both = |records: &[u8; 13], told, lifetimes| {
            agree([&records[..], &records[..]], told, lifetimes)
        };
        assert!(both(&ENDING, [seven, five], Lifetimes::Ending));
        assert!(!both(&ENDING, [five, seven], Lifetimes::Ending));
        assert!(!both(&ENDING, [seven, five], Lifetimes::Same));
        assert!(!both(&LASTING, [seven, five], Lifetimes::Ending));
        assert!(!both(&TIMELESS, [seven, five], Lifetimes::Ending));
        assert!(both(&LASTING, [five, five], Lifetimes::Same));
    }

    #[test]
    fn data_types_and_ends_count_and_places_do_not() {
        let one = &told(1, 5);
        let moved = [b"elsewhere", &LASTING[..]].concat();
        let mut there = told(1, 5);
        there.list[0][3] += 9;
        let same =
            |records: &[u8], told: &Told| agree([&LASTING, records], [one, told], Lifetimes::Same);
        assert!(same(&moved, &there));
        assert!(!same(&moved, one));
        assert!(!same(&LASTING, &told(16, 5)));
        let mut longer = told(1, 5);
        longer.list.push(longer.list[0]);
        assert!(!same(&LASTING, &longer));
        let mut other = told(1, 5);
        other.end = 14;
        assert!(!same(&LASTING, &other));
        other = told(1, 5);
        other.outcome = 2;
        assert!(!same(&LASTING, &other));
    }
}
