//! Two sources that differ in other towns' lines alone: a client is answered
//! the same by both.

use crate::agreement::{difference, Heard, Lifetimes};
use crate::asking::describe;
use crate::crowd::Crowd;
use crate::difference::{literal, Checked, Difference};
use crate::marks::Mark;
use crate::questions;
use crate::random::Random;
use crate::reading::{Asked, Reading};
use crate::speakers::Speaker;
use crate::telling::Telling;
use crate::town_lines::{are_alike, disturbed, source, twin};
use crate::walk;

/// Questions put to each pair.
const QUESTIONS: usize = 3;

/// Two sources, and questions of one client.
pub struct Towns {
    /// The sources.
    pub sources: [Vec<u8>; 2],
    /// The serial of both.
    pub serial: u32,
    /// The questions, all from the same client.
    pub asked: Vec<Asked>,
    /// Whether the sources count as alike, by how they were made.
    pub alike: bool,
}

impl Towns {
    /// Makes a pair. Which lines are another town's is known from making them;
    /// where the client is, the second implementation says.
    pub fn new(reading: &Reading, random: &mut Random) -> Towns {
        let crowd = Crowd::new(random);
        let lines = crowd.town_lines(random);
        let client = questions::client(random);
        let first = source(&lines, random.once_in(2), random);
        let location = (reading.location)(&first, &client);
        // Changed in any way, the lines still may be alike.
        let mut other = disturbed(&lines, random);
        let mut second = source(&other, true, random);
        if !are_alike(&lines, &other, location) && !(reading.alike)(&first, &second, &client) {
            let more = match random.once_in(4) {
                true => Vec::new(),
                false => crowd.lines(random),
            };
            other = twin(&lines, more, location, random);
            second = source(&other, false, random);
        }
        let asked = (0..QUESTIONS).map(|_| Asked {
            client: client.clone(),
            ..crowd.question(random)
        });
        let asked = asked.collect();
        Towns {
            sources: [first, second],
            serial: random.number() as u32,
            asked,
            alike: are_alike(&lines, &other, location),
        }
    }

    /// Holds the answers of both to each other. Returns what was seen.
    pub fn check(&self, speaker: &mut dyn Speaker) -> Checked<Telling> {
        let mut telling = Telling::default();
        let [first, second] = &self.sources;
        let Some(Asked { client, .. }) = self.asked.first() else {
            return Ok(telling);
        };
        if !(speaker.reading().alike)(first, second, client) {
            return Err(self.differs(speaker, "the sources should count as alike", &self.asked[0]));
        }
        let mut records = Vec::new();
        let mut told = Vec::new();
        for source in &self.sources {
            let Some(compiled) = speaker.compile(source, self.serial)? else {
                return Err(self.differs(speaker, "a source is refused", &self.asked[0]));
            };
            told.push(speaker.answers((source, self.serial), &compiled, &self.asked)?);
            records.push(compiled);
        }
        telling.count(Mark::Pair, true);
        telling.count(Mark::RecordsDiffer, records[0] != records[1]);
        for (place, asked) in self.asked.iter().enumerate() {
            let heard = [0, 1].map(|which: usize| Heard {
                records: &records[which],
                told: &told[which][place],
            });
            if let Some(words) = difference(heard[0], heard[1], Lifetimes::Same) {
                return Err(self.differs(speaker, &words, asked));
            }
            telling.count(Mark::TownQuestion, true);
            telling.count(Mark::TownList, !told[0][place].list.is_empty());
            let near = self.other_town_near(speaker.reading(), &records, asked);
            telling.count(Mark::OtherTownNear, near);
        }
        if !self.alike {
            let words = "the sources shouldn't count as alike";
            return Err(self.differs(speaker, words, &self.asked[0]));
        }
        Ok(telling)
    }

    /// Whether one of the sources has another town's records that would count
    /// if they were the client's.
    fn other_town_near(&self, reading: &Reading, records: &[Vec<u8>], asked: &Asked) -> bool {
        let location = (reading.location)(&self.sources[0], &asked.client);
        records.iter().any(|records| {
            let near = (reading.relevant)(records, &asked.name).unwrap_or_default();
            let mut los = walk::records(&near)
                .into_iter()
                .filter_map(|found| found.lo());
            los.any(|lo| Some(lo) != location)
        })
    }

    fn differs(&self, speaker: &dyn Speaker, words: &str, asked: &Asked) -> Difference {
        let [first, second] = self.sources.each_ref().map(|source| literal(source));
        Difference(format!(
            "towns: {words}\n  sources: {first}\n  and {second}\n  serial: {}\n{}\n  compared with {}",
            self.serial,
            describe(asked),
            speaker.reading().name
        ))
    }
}
