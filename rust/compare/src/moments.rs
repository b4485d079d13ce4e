//! One source at two moments without a time between them: the same records,
//! only ending lifetimes apart.

use crate::agreement::{difference, lifetimes_differ, Heard, Lifetimes};
use crate::asking::describe;
use crate::crowd::Crowd;
use crate::difference::{literal, Checked, Difference};
use crate::lines::{field_from_end, with_field};
use crate::marks::Mark;
use crate::random::Random;
use crate::reading::Asked;
use crate::speakers::Speaker;
use crate::telling::Telling;
use crate::town_lines::{is_place, source, Lines};
use crate::zones;

/// Questions put at each pair of moments.
const QUESTIONS: usize = 3;
/// Behind the last time and before the first, moments reach so far.
const REACH: u64 = 5_000;
/// Moments are less.
const END: u64 = 1 << 63;

/// A source, two moments, and questions at both.
pub struct Moments {
    source: Vec<u8>,
    /// The times in it, sorted.
    times: Vec<u64>,
    earlier: u64,
    later: u64,
    serial: u32,
    asked: Vec<Asked>,
}

impl Moments {
    /// Makes a source and picks moments between two of its times.
    pub fn new(random: &mut Random) -> Moments {
        let crowd = Crowd::new(random);
        let lines = timed(crowd.town_lines(random), random);
        let others = lines.iter().filter(|line| !is_place(line));
        let mut times: Vec<u64> = others.filter_map(|line| time(line)).collect();
        times.sort_unstable();
        // Before the first time most records that end are still there.
        let gap = match random.once_in(2) {
            true => 0,
            false => random.below(times.len() + 1),
        };
        let before = gap.checked_sub(1).map(|place| times[place]);
        let behind = times.get(gap).copied();
        let low = before.unwrap_or(behind.unwrap_or(END).saturating_sub(REACH));
        let high = behind
            .unwrap_or(END.min(low + REACH))
            .saturating_sub(1)
            .max(low);
        let mut pair = [0, 1].map(|_| match random.below(3) {
            0 => low,
            1 => high,
            _ => low + random.below((high - low) as usize + 1) as u64,
        });
        pair.sort_unstable();
        let asked = (0..QUESTIONS).map(|_| crowd.question(random));
        let asked = asked.collect();
        Moments {
            source: source(&lines, false, random),
            times,
            earlier: pair[0],
            later: pair[1],
            serial: random.number() as u32,
            asked,
        }
    }

    /// Holds the answers at both moments to each other. Returns what was seen.
    pub fn check(&self, speaker: &mut dyn Speaker) -> Checked<Telling> {
        self.steadiness(speaker)?;
        let mut telling = Telling::default();
        if !self.is_steady(self.earlier, self.later) {
            return Ok(telling);
        }
        let Some(records) = speaker.compile(&self.source, self.serial)? else {
            return Err(self.differs(speaker, "the source is refused"));
        };
        let source = (&self.source[..], self.serial);
        let mut told = Vec::new();
        for moment in [self.earlier, self.later] {
            let asked = self.asked.iter().cloned();
            let asked: Vec<_> = asked.map(|asked| Asked { moment, ..asked }).collect();
            told.push(speaker.answers(source, &records, &asked)?);
        }
        for ((asked, earlier), later) in self.asked.iter().zip(&told[0]).zip(&told[1]) {
            let heard = [earlier, later].map(|told| Heard {
                records: &records,
                told,
            });
            let words = difference(heard[0], heard[1], Lifetimes::Ending);
            let places = earlier.list.iter().map(|numbers| numbers[3]);
            let moved = !places.eq(later.list.iter().map(|numbers| numbers[3]));
            if let Some(words) = words.or(moved.then(|| "other places".to_owned())) {
                return Err(self.differs(speaker, &format!("{words}\n{}", describe(asked))));
            }
            telling.count(Mark::MomentQuestion, true);
            telling.count(Mark::MomentList, !earlier.list.is_empty());
            telling.count(Mark::LifetimeDiffers, lifetimes_differ(earlier, later));
        }
        Ok(telling)
    }

    /// What the second implementation says of moments inside and across the
    /// times, held to the times that the lines were made with.
    fn steadiness(&self, speaker: &dyn Speaker) -> Checked {
        let (earlier, later) = (self.earlier, self.later);
        let wider = (earlier.saturating_sub(1), later.saturating_add(1));
        let moments = [
            (earlier, later),
            (wider.0, later),
            (earlier, wider.1),
            wider,
        ];
        for (earlier, later) in moments {
            let steady = (speaker.reading().steady)(&self.source, earlier, later);
            if steady != self.is_steady(earlier, later) {
                let words = format!("from {earlier:#x} to {later:#x}, a time between them");
                return Err(self.differs(speaker, &words));
            }
        }
        Ok(())
    }

    fn is_steady(&self, earlier: u64, later: u64) -> bool {
        !self
            .times
            .iter()
            .any(|&time| (earlier + 1..=later).contains(&time))
    }

    fn differs(&self, speaker: &dyn Speaker, words: &str) -> Difference {
        Difference(format!(
            "moments: {words}\n  source: {}\n  serial: {}, moments: {:#x} and {:#x}\n  compared with {}",
            literal(&self.source),
            self.serial,
            self.earlier,
            self.later,
            speaker.reading().name
        ))
    }
}

/// The lines with more times, and more that end.
fn timed(mut lines: Lines, random: &mut Random) -> Lines {
    let times = zones::TIMES.map(|time| time + [0, 9, 4_000][random.below(3)]);
    for line in lines.iter_mut().filter(|line| !is_place(line)) {
        if random.once_in(3) {
            let time = format!("{:016x}", random.pick(&times));
            *line = with_field(line, 1, time.as_bytes());
            *line = with_field(line, 2, random.pick(&["", "0", "0", "7"]).as_bytes());
        }
    }
    lines
}

/// The time of a line.
fn time(line: &[u8]) -> Option<u64> {
    let digits = std::str::from_utf8(field_from_end(line, 1)).ok()?;
    u64::from_str_radix(digits, 16).ok()
}
