//! Cases of what an answer doesn't depend on.

use crate::difference::Checked;
use crate::index::Index;
use crate::moments::Moments;
use crate::random::Random;
use crate::reading::Reading;
use crate::speakers::{Alone, LinesAlone, Speaker};
use crate::telling::Telling;
use crate::towns::Towns;

/// How many kinds there are; towns count twice.
pub const KINDS: u64 = 4;

/// A case.
pub enum Independent {
    /// Of other towns' lines.
    Towns(Towns),
    /// Of moments without a time between them.
    Moments(Moments),
    /// Of records that can't matter.
    Index(Index),
}

impl Independent {
    /// Makes a case of a kind, which is a number below [`KINDS`].
    pub fn new(kind: u64, reading: &Reading, random: &mut Random) -> Independent {
        match kind {
            0 | 1 => Independent::Towns(Towns::new(reading, random)),
            2 => Independent::Moments(Moments::new(random)),
            _ => Independent::Index(Index::new(random)),
        }
    }

    /// Holds whoever answers to it. Returns what was seen.
    pub fn check(&self, speaker: &mut dyn Speaker) -> Checked<Telling> {
        match self {
            Independent::Towns(towns) => towns.check(speaker),
            Independent::Moments(moments) => moments.check(speaker),
            Independent::Index(index) => index.check(speaker),
        }
    }
}

/// Holds a second implementation to a case, with nothing beside it: what it
/// answers from the bytes, then what it says of the lines.
pub fn alone(reading: &Reading, seed: u64, case: u64) -> Checked {
    let mut random = Random::of_case(seed, case);
    let made = Independent::new(case % KINDS, reading, &mut random);
    made.check(&mut Alone(reading))?;
    made.check(&mut LinesAlone(Alone(reading))).map(drop)
}

#[cfg(test)]
mod tests {
    use super::*;
    use crate::reading::REFERENCE;

    #[test]
    fn the_second_implementation_holds_by_itself() {
        for case in 0..2_000 {
            alone(&REFERENCE, 9, case).expect("no difference");
        }
    }
}
