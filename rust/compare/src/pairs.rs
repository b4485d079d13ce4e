//! Fixed pairs of sources that a client can't tell apart, with the answer that
//! the rules give: the same ones as the second implementation's own tests have.

use crate::difference::{Checked, Difference};
use crate::random::Random;
use crate::reading::{Asked, Reading};
use crate::speakers::{Library, Speaker};
use crate::tally::Tally;
use crate::towns::Towns;
use crate::worked::wire;

#[path = "../../reference/tests/pairs/mod.rs"]
mod fixed;

use fixed::{Pair, MOMENT, PAIRS};

/// Compares all of them and holds them to their answers. Returns their count.
pub fn run(reading: &Reading, tally: &mut Tally) -> Checked<u64> {
    let mut random = Random::of_case(0, 3);
    for pair in PAIRS {
        let (name, record_type) = pair.asked;
        let asked = Asked {
            name: wire(name),
            record_type,
            client: pair.client.to_vec(),
            moment: MOMENT,
        };
        let towns = Towns {
            sources: pair.sources.map(Into::into),
            serial: 1,
            asked: vec![asked.clone()],
            alike: true,
        };
        let mut library = Library {
            reading,
            random: &mut random,
            tally,
        };
        let telling = towns.check(&mut library)?;
        worked(&mut library, pair, &asked)?;
        tally.telling += telling;
    }
    Ok(PAIRS.len() as u64)
}

/// Holds the first source's answer to that of the rules.
fn worked(library: &mut Library<'_>, pair: &Pair, asked: &Asked) -> Checked {
    let source = pair.sources[0];
    let differs = |words: String| Difference(format!("{words}\n  source: {source:?}"));
    let records = library.compile(source.as_bytes(), 1)?;
    let records = records.ok_or_else(|| differs("a source is refused".to_owned()))?;
    let told = library.ask(&records, asked)?;
    let given = told.list.iter().map(|numbers| {
        let [_, record_type, lifetime, place, length, _] = *numbers;
        let data = &records[place as usize..][..length as usize];
        (record_type, lifetime, data)
    });
    if told.outcome != pair.outcome || !given.eq(pair.list.iter().copied()) {
        let (outcome, list) = (told.outcome, &told.list);
        let wanted = (pair.outcome, pair.list);
        return Err(differs(format!(
            "the rules give {wanted:?}, asking {outcome} and {list:?}"
        )));
    }
    Ok(())
}
