//! How often each answer was seen, to show that the inputs reach them all.

use std::fmt;
use std::ops::AddAssign;

use crate::telling::Telling;

/// What became of a joined source.
#[derive(Clone, Copy, Debug)]
pub enum Joined {
    /// All parts are good.
    Accepted,
    /// The first part is refused, or the whole is too long.
    Refused,
    /// A part behind the first is refused.
    RefusedLater,
    /// A part before the last isn't ended.
    NotEnded,
}

/// Counts of the calls compared.
#[derive(Clone, Debug, Default)]
pub struct Tally {
    compile: [u64; 20],
    ask: [u64; 20],
    outcomes: [u64; 6],
    joined: [u64; 4],
    /// Answers held against the lines themselves.
    pub meant: u64,
    /// Cases aimed at what an answer doesn't depend on, and at names alike.
    pub telling: Telling,
}

impl Tally {
    /// Counts a call of compiling.
    pub fn compiled(&mut self, number: u64) {
        count(&mut self.compile, number);
    }

    /// Counts a call of asking.
    pub fn asked(&mut self, number: u64) {
        count(&mut self.ask, number);
    }

    /// Counts a question by its outcome; 0 is a refusal.
    pub fn told(&mut self, outcome: u64) {
        count(&mut self.outcomes, outcome);
    }

    /// Counts a joined source.
    pub fn joined(&mut self, joined: Joined) {
        self.joined[joined as usize] += 1;
    }

    /// What a run must have seen and has not.
    pub fn missing(&self) -> Option<String> {
        if self.outcomes[1..].contains(&0) {
            return Some("an outcome never occurred".to_owned());
        }
        if self.joined[Joined::RefusedLater as usize] == 0 {
            return Some("no joined source was refused in a later part".to_owned());
        }
        self.telling.missing()
    }
}

impl AddAssign for Tally {
    fn add_assign(&mut self, other: Tally) {
        add(&mut self.compile, &other.compile);
        add(&mut self.ask, &other.ask);
        add(&mut self.outcomes, &other.outcomes);
        add(&mut self.joined, &other.joined);
        self.meant += other.meant;
        self.telling += other.telling;
    }
}

fn add(counts: &mut [u64], others: &[u64]) {
    for (count, other) in counts.iter_mut().zip(others) {
        *count += other;
    }
}

fn count(counts: &mut [u64], number: u64) {
    if let Some(count) = counts.get_mut(number as usize) {
        *count += 1;
    }
}

impl fmt::Display for Tally {
    fn fmt(&self, f: &mut fmt::Formatter<'_>) -> fmt::Result {
        write_counts(f, "compile", "calls; answers", &self.compile)?;
        write_counts(f, "ask", "calls; answers", &self.ask)?;
        write_counts(f, "outcomes", "questions; outcomes", &self.outcomes)?;
        let [accepted, refused, later, open] = self.joined;
        writeln!(
            f,
            "joined: {} sources; accepted: {accepted}, refused: {refused}, refused in a later \
             part: {later}, a part not ended: {open}",
            self.joined.iter().sum::<u64>()
        )?;
        writeln!(f, "lines: {} answers held to their meaning", self.meant)?;
        write!(f, "{}", self.telling)
    }
}

fn write_counts(
    f: &mut fmt::Formatter<'_>,
    call: &str,
    words: &str,
    counts: &[u64],
) -> fmt::Result {
    write!(f, "{call}: {} {words}", counts.iter().sum::<u64>())?;
    for (number, count) in counts.iter().enumerate().filter(|(_, &count)| count > 0) {
        write!(f, " {number}: {count}")?;
    }
    writeln!(f)
}
