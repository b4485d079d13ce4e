//! Fixed questions with the answers that the rules give: the same examples as
//! the second implementation's own tests have.

use crate::asking;
use crate::compiling;
use crate::difference::{literal, Checked, Difference};
use crate::random::Random;
use crate::reading::{Asked, Reading};
use crate::tally::Tally;

#[path = "../../reference/tests/examples/mod.rs"]
mod examples;

pub use examples::wire;
use examples::EXAMPLES;

/// Compares all examples and holds them to their answers. Returns the number
/// of questions.
pub fn run(reading: &Reading, tally: &mut Tally) -> Checked<u64> {
    let mut random = Random::of_case(0, 1);
    let mut count = 0;
    for example in EXAMPLES {
        let source = example.lines.as_bytes();
        let differs = |words: &str| Difference(format!("{words}\n  source: {}", literal(source)));
        let records = compiling::check(reading, source, 1, &mut random, tally)?;
        let records = records.ok_or_else(|| differs("an example is refused"))?;
        for (name, record_type) in example.questions() {
            count += 1;
            let asked = Asked {
                name,
                record_type,
                client: example.client.to_vec(),
                moment: example.moment,
            };
            let told = asking::check(reading, &records, &asked, &mut random, tally)?;
            let wanted: Vec<_> = (0..example.list.len() as u64)
                .map(|ordinal| example.answer(ordinal))
                .collect();
            if (told.outcome, &told.list) != (example.outcome, &wanted) {
                let (outcome, list) = (told.outcome, told.list);
                let asked = asking::describe(&asked);
                return Err(differs(&format!(
                    "the rules give {} and {wanted:?}, asking {outcome} and {list:?}\n{asked}",
                    example.outcome
                )));
            }
        }
    }
    Ok(count)
}
