//! Fixed sources joined, with the answers that the rules give: the same ones
//! as the second implementation's own tests have.

use crate::difference::{literal, Checked, Difference};
use crate::joining;
use crate::random::Random;
use crate::reading::Reading;
use crate::tally::Tally;

#[path = "../../reference/tests/joins/mod.rs"]
mod fixed;

/// Compares all of them and holds them to their answers. Returns their count.
pub fn run(reading: &Reading, tally: &mut Tally) -> Checked<u64> {
    let mut random = Random::of_case(0, 2);
    let joins = fixed::joins();
    for join in &joins {
        let parts: Vec<&[u8]> = join.parts.iter().map(Vec::as_slice).collect();
        let whole = parts.concat();
        let [_, _, _, bytes] = join.answer;
        let found = joining::library(&whole, 1, &mut vec![0; bytes as usize]);
        if found != join.answer {
            let wanted = join.answer;
            let shown = literal(&whole[..whole.len().min(2_000)]);
            return Err(Difference(format!(
                "the rules give {wanted:?} and compiling answers {found:?}\n  joined: {shown}"
            )));
        }
        joining::check(reading, &parts, 1, &mut random, tally)?;
    }
    Ok(joins.len() as u64)
}
