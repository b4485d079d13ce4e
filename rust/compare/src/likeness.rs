//! Record bytes whose keys are like an asked name: an answer goes by the keys
//! that are the name or an ancestor of it, and by no other.

use crate::asking::{self, Told};
use crate::difference::Checked;
use crate::hostile::plain;
use crate::marks::Mark;
use crate::near_keys;
use crate::questions;
use crate::random::Random;
use crate::reading::{Asked, Reading};
use crate::standing::{standing, starts, Standing};
use crate::tally::Tally;
use crate::telling::Telling;
use crate::walk;

/// Questions put to each stream.
const QUESTIONS: usize = 4;
/// Longest key of a wildcard.
const LONGEST_WILDCARD: usize = 253;
/// Types of name servers and authorities.
const ZONE: [u8; 2] = [2, 6];
/// The outcomes' marks, in the order of their numbers.
const OUTCOMES: [Mark; 5] = [
    Mark::LikeNotOurs,
    Mark::LikeReferral,
    Mark::LikeRecords,
    Mark::LikeOtherTypes,
    Mark::LikeUnknown,
];

/// Makes record bytes and questions, and compares them.
pub fn run(reading: &Reading, random: &mut Random, tally: &mut Tally) -> Checked {
    let name = near_keys::name(random);
    let (records, keys) = stream(&name, random);
    for _ in 0..QUESTIONS {
        let asked = question(&name, &keys, random);
        let told = asking::check(reading, &records, &asked, random, tally)?;
        tally.telling += seen(&records, &asked, &told);
    }
    Ok(())
}

/// Records with keys like the name, and these keys. Most pass the reader.
fn stream(name: &[u8], random: &mut Random) -> (Vec<u8>, Vec<Vec<u8>>) {
    let mut records = Vec::new();
    let mut put = |record, random: &mut Random| {
        let place = random.below(records.len() + 1);
        records.insert(place, record);
    };
    let keys = near_keys::keys(name, random);
    for key in &keys {
        put(record(key, random), random);
    }
    let starts = starts(name).expect("a name");
    // A zone; or a delegation; or nothing that makes the name ours.
    let types = &ZONE[..random.pick(&[0, 1, 2, 2, 2])];
    let control = &name[random.pick(&starts)..];
    if !control.starts_with(b"\x01*") {
        for &record_type in types {
            put(plain(control, record_type, false), random);
        }
    }
    if random.once_in(4) {
        put(location(&name[random.pick(&starts)..]), random);
    }
    if random.once_in(8) {
        let key = near_keys::malformed(&name[random.pick(&starts)..], random);
        put(plain(&key, 1, false), random);
    }
    (records.concat(), keys)
}

fn record(key: &[u8], random: &mut Random) -> Vec<u8> {
    let wildcard = key.len() <= LONGEST_WILDCARD && random.once_in(3);
    let wildcard = wildcard || key.starts_with(b"\x01*");
    let record_type = random.pick(&[1, 1, 1, 1, 16, 16, 2, 6]);
    plain(key, record_type, wildcard)
}

/// A location whose key is like a name.
fn location(name: &[u8]) -> Vec<u8> {
    let prefix = &name[name.len().saturating_sub(4).max(2).min(name.len())..];
    let mut record = (2 + prefix.len() as u32).to_le_bytes().to_vec();
    record.extend([2, 0, 0, 0, 0, b'%']);
    record.extend(prefix);
    record.extend(b"in");
    record
}

/// A question for the name, or for one of the keys or what is below it.
fn question(name: &[u8], keys: &[Vec<u8>], random: &mut Random) -> Asked {
    let key = &keys[random.below(keys.len())];
    let mut name = match random.below(4) {
        0 => key.clone(),
        1 => [b"\x01\x01", &key[..]].concat(),
        _ => name.to_vec(),
    };
    if random.once_in(2) {
        for byte in name.iter_mut().filter(|byte| byte.is_ascii_lowercase()) {
            if random.once_in(2) {
                byte.make_ascii_uppercase();
            }
        }
    }
    Asked {
        name,
        record_type: random.pick(&[1, 1, 1, 16, 2, 6, 28, 255, 255]),
        client: questions::client(random),
        moment: questions::moment(random),
    }
}

/// What a question and its answers had.
fn seen(records: &[u8], asked: &Asked, told: &Told) -> Telling {
    let mut telling = Telling::default();
    telling.count(Mark::LikeMalformed, told.end == 14);
    let (Some(starts), Some(outcome)) = (starts(&asked.name), told.outcome.checked_sub(1)) else {
        return telling;
    };
    telling.count(Mark::LikeQuestion, true);
    telling.count(OUTCOMES[outcome as usize], true);
    let name = asked.name.to_ascii_lowercase();
    telling.count(Mark::UpperCase, name != asked.name && outcome == 2);
    telling.count(Mark::RootAsked, name.len() == 1);
    telling.count(Mark::ManyLabels, starts.len() == 128);
    telling.count(Mark::LongLabels, name.len() == 255 && starts.len() < 10);
    let mut marks: Vec<_> = walk::records(records)
        .iter()
        .filter_map(|found| mark(&asked.name, found.key, standing(&name, &starts, found.key)))
        .collect();
    marks.sort_unstable();
    marks.dedup();
    for mark in marks {
        telling.count(mark, true);
    }
    telling
}

/// What a key is to be counted as.
fn mark(name: &[u8], key: &[u8], standing: Standing) -> Option<Mark> {
    match standing {
        Standing::End => Some(Mark::LikeEnd),
        Standing::Longer => Some(Mark::ByteLonger),
        Standing::Shorter => Some(Mark::ByteShorter),
        Standing::Differs { first, count: 1 } => {
            let asked = name[name.len() - key.len() + first];
            if matches!(asked, b'@' | b'[') && key[first] == asked + 32 {
                return Some(Mark::BesideLetters);
            }
            Some(match key.len() - first {
                _ if first == 0 => Mark::FirstByte,
                2 => Mark::LastByte,
                _ => Mark::MiddleByte,
            })
        }
        Standing::Differs { .. } | Standing::Same | Standing::Apart => None,
    }
}

#[cfg(test)]
mod tests {
    use super::*;
    use crate::reading::REFERENCE;

    #[test]
    fn few_cases_reach_all_that_is_meant() {
        let mut tally = Tally::default();
        for case in 0..3_000 {
            let random = &mut Random::of_case(11, case);
            run(&REFERENCE, random, &mut tally).expect("no difference");
        }
        let missing = tally.telling.missing_where(|line| line == "likeness");
        assert_eq!(missing, None);
    }
}
