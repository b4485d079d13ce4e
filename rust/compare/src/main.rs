//! Runs the comparison: `compare [--cases N] [--seed N] [--only N] [--trace]`.

use std::env;
use std::process::ExitCode;

use compare::difference::Checked;
use compare::reading::{Reading, REFERENCE};
use compare::tally::Tally;
use compare::{cases, edges, joins, pairs, worked};

const USAGE: &str = "\
compare [--cases N] [--seed N] [--only N] [--trace]

Compares the library with the second implementation on N made-up inputs
(500000 without --cases) of a seed (1 without --seed). With --only, runs just
the case of that number. With --trace, names each case before it is run, to
find one that crashes. A run of 10000 cases or more must have met all that the
inputs are made for. Exit status: 0 no difference, 1 differences or something
not met, 2 usage.";

/// So many cases meet all that the inputs are made for.
const ENOUGH: u64 = 10_000;
/// So many differences are shown before the run ends.
const MOST_SHOWN: u64 = 5;

struct Options {
    cases: u64,
    seed: u64,
    only: Option<u64>,
    trace: bool,
}

fn main() -> ExitCode {
    let Some(options) = options() else {
        eprintln!("{USAGE}");
        return ExitCode::from(2);
    };
    // The fixed inputs have every outcome; the others must have them too.
    let mut fixed_tally = Tally::default();
    let mut tally = Tally::default();
    let mut differences = fixed(&mut fixed_tally);
    let count = made_up(&options, &mut differences, &mut tally);
    let missing = tally.missing();
    tally += fixed_tally;
    println!("{tally}");
    println!("compare: {count} cases, {differences} differences");
    if let (None, Some(missing)) = (options.only, missing) {
        println!("compare: {missing}");
        if options.cases >= ENOUGH {
            return ExitCode::FAILURE;
        }
    }
    if differences > 0 {
        return ExitCode::FAILURE;
    }
    ExitCode::SUCCESS
}

/// Compares the fixed inputs. Returns the number of differences.
fn fixed(tally: &mut Tally) -> u64 {
    type Run = fn(&Reading, &mut Tally) -> Checked<u64>;
    let runs: [(&str, Run, &str); 4] = [
        ("edges", edges::run, "fixed sources answer"),
        ("joins", joins::run, "fixed sources joined answer"),
        ("examples", worked::run, "fixed questions are answered"),
        ("pairs", pairs::run, "fixed pairs of sources answer"),
    ];
    let mut differences = 0;
    for (title, run, words) in runs {
        match run(&REFERENCE, tally) {
            Ok(count) => println!("{title}: {count} {words} as the rules say"),
            Err(difference) => {
                println!("difference at one of the {title}\n{difference}");
                differences += 1;
            }
        }
    }
    differences
}

/// Compares the made-up inputs until too many differ. Returns how many there
/// were.
fn made_up(options: &Options, differences: &mut u64, tally: &mut Tally) -> u64 {
    let seed = options.seed;
    let numbers = match options.only {
        Some(only) => only..only + 1,
        None => 0..options.cases,
    };
    let mut count = 0;
    for case in numbers {
        count += 1;
        if options.trace {
            eprintln!("case {case}");
        }
        if let Err(difference) = cases::run(&REFERENCE, seed, case, tally) {
            println!("difference: compare --seed {seed} --only {case}\n{difference}");
            *differences += 1;
            if *differences == MOST_SHOWN {
                break;
            }
        }
    }
    count
}

fn options() -> Option<Options> {
    let mut options = Options {
        cases: 500_000,
        seed: 1,
        only: None,
        trace: false,
    };
    let mut words = env::args().skip(1);
    while let Some(word) = words.next() {
        if word == "--trace" {
            options.trace = true;
            continue;
        }
        let number = words.next()?.parse().ok()?;
        match word.as_str() {
            "--cases" => options.cases = number,
            "--seed" => options.seed = number,
            "--only" => options.only = Some(number),
            _ => return None,
        }
    }
    Some(options)
}
