//! How often cases aimed at something could have shown a difference.

use std::fmt;
use std::ops::AddAssign;

use crate::marks::{Mark, WORDS};

/// Counts of the marks.
#[derive(Clone, Debug, Default)]
pub struct Telling([u64; WORDS.len()]);

impl Telling {
    /// Counts a mark where it holds.
    pub fn count(&mut self, mark: Mark, holds: bool) {
        self.0[mark as usize] += u64::from(holds);
    }

    /// The words for a mark that was never seen.
    pub fn missing(&self) -> Option<String> {
        self.missing_where(|_| true)
    }

    /// The words for a mark of some lines that was never seen.
    pub fn missing_where(&self, wanted: impl Fn(&str) -> bool) -> Option<String> {
        let mut marks = WORDS.iter().zip(self.0);
        let ((line, words), _) = marks.find(|((line, _), count)| *count == 0 && wanted(line))?;
        Some(format!("{line}: 0 {words}"))
    }
}

impl AddAssign for Telling {
    fn add_assign(&mut self, other: Telling) {
        for (count, other) in self.0.iter_mut().zip(other.0) {
            *count += other;
        }
    }
}

impl fmt::Display for Telling {
    fn fmt(&self, f: &mut fmt::Formatter<'_>) -> fmt::Result {
        let mut before = "";
        for ((line, words), count) in WORDS.iter().zip(self.0) {
            match *line == before {
                true => write!(f, ", {count} {words}")?,
                false if before.is_empty() => write!(f, "{line}: {count} {words}")?,
                false => write!(f, "\n{line}: {count} {words}")?,
            }
            before = line;
        }
        Ok(())
    }
}

#[cfg(test)]
mod tests {
    use super::*;

    #[test]
    fn a_mark_never_seen_is_missing() {
        let mut telling = Telling([1; WORDS.len()]);
        assert_eq!(telling.missing(), None);
        telling.0[Mark::LeftOut as usize] = 0;
        let words = "index: 0 with records left out";
        assert_eq!(telling.missing().as_deref(), Some(words));
        telling.count(Mark::LeftOut, false);
        assert!(telling.missing().is_some());
        telling.count(Mark::LeftOut, true);
        assert_eq!(telling.missing(), None);
    }
}
