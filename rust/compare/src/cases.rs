//! One case: an input made from seed and number, and all that is compared on it.

use crate::asking::Told;
use crate::difference::{literal, Checked, Difference};
use crate::family::Family;
use crate::independent::Independent;
use crate::lines::Mood;
use crate::random::Random;
use crate::reading::{Asked, Reading};
use crate::speakers::Library;
use crate::tally::Tally;
use crate::{
    asking, compiling, hostile, joining, likeness, meaning, parts, questions, sources, zones,
};

/// Questions put to each source or stream.
const QUESTIONS: usize = 4;
/// Questions put to each joined source, which is longer than others.
const QUESTIONS_OF_JOINED: usize = 2;

/// Makes a case and compares all of it.
pub fn run(reading: &Reading, seed: u64, case: u64, tally: &mut Tally) -> Checked {
    let mut random = Random::of_case(seed, case);
    let random = &mut random;
    match case % 30 {
        0..=2 => {
            let good = sources::of_lines(Mood::Good, random);
            source(reading, &good, random, tally)
        }
        3..=5 => source(reading, &sources::crowded(random), random, tally),
        6..=7 => {
            let borderline = sources::of_lines(Mood::Borderline, random);
            source(reading, &borderline, random, tally)
        }
        8..=9 => {
            let mut damaged = sources::of_lines(Mood::Good, random);
            sources::damage(&mut damaged, random);
            source(reading, &damaged, random, tally)
        }
        10 => source(reading, &sources::noise(random), random, tally),
        11..=12 => {
            let written = sources::of_lines(Mood::Good, random);
            let mut damaged = compiled(reading, &written);
            hostile::damage(&mut damaged, random);
            stream(reading, &damaged, random, tally)
        }
        13..=15 => stream(reading, &hostile::stream(random), random, tally),
        16..=20 => {
            let family = Family::written(random);
            let zones = zones::source(&family, &zones::TIMES, random);
            source_asked(reading, &zones, random, tally, |_, random| {
                family.question(random)
            })
        }
        21..=22 => zone_stream(reading, random, tally),
        23 => likeness::run(reading, random, tally),
        24..=25 => joined(reading, &parts::several(random), random, tally),
        kind => independent(reading, kind - 26, random, tally),
    }
}

/// Compares a source: compiling it, asking what it became, and the meaning
/// of its lines.
pub fn source(reading: &Reading, source: &[u8], random: &mut Random, tally: &mut Tally) -> Checked {
    source_asked(reading, source, random, tally, questions::about)
}

/// Compares a source with questions of some making.
fn source_asked(
    reading: &Reading,
    source: &[u8],
    random: &mut Random,
    tally: &mut Tally,
    question: impl Fn(&[u8], &mut Random) -> Asked,
) -> Checked {
    let serial = serial(random);
    let Some(records) = compiling::check(reading, source, serial, random, tally)? else {
        return Ok(());
    };
    let asked: Vec<Asked> = (0..QUESTIONS).map(|_| question(&records, random)).collect();
    answers(reading, (source, serial), &records, &asked, random, tally).map(drop)
}

/// Compares sources joined: compiling them as one, asking what they became,
/// and the meaning of all their lines.
fn joined(reading: &Reading, parts: &[Vec<u8>], random: &mut Random, tally: &mut Tally) -> Checked {
    let serial = serial(random);
    let parts: Vec<&[u8]> = parts.iter().map(Vec::as_slice).collect();
    let Some(records) = joining::check(reading, &parts, serial, random, tally)? else {
        return Ok(());
    };
    let question = |_| questions::about(&records, random);
    let asked: Vec<Asked> = (0..QUESTIONS_OF_JOINED).map(question).collect();
    let whole = parts.concat();
    answers(reading, (&whole, serial), &records, &asked, random, tally).map(drop)
}

fn serial(random: &mut Random) -> u32 {
    match random.below(4) {
        0 => 0,
        1 => u32::MAX,
        _ => random.number() as u32,
    }
}

/// Compares the answers to questions over what a source with its serial
/// became. Returns them.
pub fn answers(
    reading: &Reading,
    (source, serial): (&[u8], u32),
    records: &[u8],
    asked: &[Asked],
    random: &mut Random,
    tally: &mut Tally,
) -> Checked<Vec<Told>> {
    let meant = (reading.meaning)(source, serial, asked);
    let compared = asked.iter().zip(&meant).map(|(asked, meant)| {
        let told = asking::check(reading, records, asked, random, tally)?;
        let held = meaning::check(reading, records, asked, &told, meant, tally);
        held.map_err(|Difference(words)| {
            let source = literal(source);
            Difference(format!("{words}\n  source: {source}\n  serial: {serial}"))
        })?;
        Ok(told)
    });
    compared.collect()
}

/// Compares asking over any bytes.
pub fn stream(
    reading: &Reading,
    records: &[u8],
    random: &mut Random,
    tally: &mut Tally,
) -> Checked {
    for _ in 0..QUESTIONS {
        let asked = questions::about(records, random);
        asking::check(reading, records, &asked, random, tally)?;
    }
    Ok(())
}

/// Compares asking over record bytes of zones.
fn zone_stream(reading: &Reading, random: &mut Random, tally: &mut Tally) -> Checked {
    let family = Family::of_any_bytes(random);
    let zones = zones::stream(&family, random);
    for _ in 0..QUESTIONS {
        let asked = family.question(random);
        asking::check(reading, &zones, &asked, random, tally)?;
    }
    Ok(())
}

/// Compares a case of what an answer doesn't depend on.
fn independent(reading: &Reading, kind: u64, random: &mut Random, tally: &mut Tally) -> Checked {
    let made = Independent::new(kind, reading, random);
    let mut library = Library {
        reading,
        random,
        tally,
    };
    let telling = made.check(&mut library)?;
    tally.telling += telling;
    Ok(())
}

/// The record bytes of a source by the second implementation; none if refused.
fn compiled(reading: &Reading, source: &[u8]) -> Vec<u8> {
    let [_, _, _, needed] = (reading.compile)(source, 1, &mut []);
    let mut records = vec![0; needed as usize];
    (reading.compile)(source, 1, &mut records);
    records
}
