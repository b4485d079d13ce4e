//! Answers held to what the lines themselves say, outcome and list together.

use crate::asking::{describe, Told};
use crate::difference::{Checked, Difference};
use crate::reading::{Asked, Meant, Reading};
use crate::tally::Tally;

/// Holds what asking told against what the lines say.
pub fn check(
    reading: &Reading,
    records: &[u8],
    asked: &Asked,
    told: &Told,
    meant: &Meant,
    tally: &mut Tally,
) -> Checked {
    tally.meant += 1;
    let differs = |words: String| {
        let asked = describe(asked);
        Difference(format!(
            "ask and the lines' meaning: {words}\n{asked}\n  compared with {}",
            reading.name
        ))
    };
    let Ok((outcome, given)) = meant else {
        return match (told.outcome, &told.list[..]) {
            (0, []) => Ok(()),
            _ => Err(differs("the question should be refused".to_owned())),
        };
    };
    if *outcome != told.outcome {
        let found = told.outcome;
        return Err(differs(format!("outcome {outcome} wanted, {found} given")));
    }
    if given.len() != told.list.len() {
        let (wanted, found) = (given.len(), told.list.len());
        return Err(differs(format!("{wanted} records wanted, {found} given")));
    }
    for (ordinal, (given, numbers)) in given.iter().zip(&told.list).enumerate() {
        let [_, record_type, lifetime, place, length, _] = *numbers;
        let data = records
            .get(place as usize..)
            .and_then(|behind| behind.get(..length as usize));
        let same = record_type == u64::from(given.record_type)
            && lifetime == u64::from(given.lifetime)
            && place + length == given.end
            && data == Some(&given.data[..]);
        if !same {
            return Err(differs(format!(
                "ordinal {ordinal}: {given:?} wanted, {numbers:?} given"
            )));
        }
    }
    Ok(())
}
