//! Runs the comparison against copies of the second implementation, each with
//! one mistake. The comparison must see every one of them. With `--alone`,
//! says instead which copies break by themselves, with nothing beside them,
//! what an answer doesn't depend on.

use std::env;
use std::process::ExitCode;

use compare::reading::Reading;
use compare::tally::Tally;
use compare::{cases, edges, independent, joins, reading};

const MUTANTS: &[Reading] = copies::each!(reading);
const SEED: u64 = 1;
/// A part of what the comparison itself runs.
const MOST_CASES: u64 = 30_000;
/// Behind so many cases, which see most mistakes, the fixed sources joined are
/// tried: they take less time than the other cases.
const FIRST_CASES: u64 = 5_000;
/// Cases that a copy is tried on alone: as many of these kinds as there are
/// among [`MOST_CASES`].
const CASES_ALONE: u64 = 4_000;

fn main() -> ExitCode {
    let alone = env::args().nth(1).is_some_and(|word| word == "--alone");
    let sight = if alone { sight_alone } else { first_sight };
    let mut seen = 0;
    for mutant in MUTANTS {
        match sight(mutant) {
            Some(place) => {
                println!("seen at {place}: {}", mutant.name);
                seen += 1;
            }
            None => println!("NOT SEEN: {}", mutant.name),
        }
    }
    let all = MUTANTS.len();
    println!("mutants: {all} mistakes, {seen} seen");
    if seen < all && !alone {
        return ExitCode::FAILURE;
    }
    ExitCode::SUCCESS
}

/// Where the comparison first sees a mistake.
fn first_sight(mutant: &Reading) -> Option<String> {
    let mut tally = Tally::default();
    let mut seen = |case: &u64| cases::run(mutant, SEED, *case, &mut tally).is_err();
    let first = (0..FIRST_CASES).find(&mut seen);
    if first.is_none() && joins::run(mutant, &mut Tally::default()).is_err() {
        return Some("a fixed source joined".to_owned());
    }
    if let Some(case) = first.or_else(|| (FIRST_CASES..MOST_CASES).find(&mut seen)) {
        return Some(format!("case {case}"));
    }
    edges::run(mutant, &mut tally)
        .is_err()
        .then(|| "a fixed source".to_owned())
}

/// Where a copy's own answers first break what they don't depend on.
fn sight_alone(mutant: &Reading) -> Option<String> {
    let case = (0..CASES_ALONE).find(|&case| independent::alone(mutant, SEED, case).is_err());
    case.map(|case| format!("case {case} alone"))
}
