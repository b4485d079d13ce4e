//! Records that can't matter to a question, left out or put in: an answer is
//! the same but for the place.

use crate::agreement::{difference, Heard, Lifetimes};
use crate::asking::{describe, Told};
use crate::crowd::Crowd;
use crate::difference::{literal, Checked, Difference};
use crate::hostile::plain;
use crate::marks::Mark;
use crate::random::Random;
use crate::reading::Asked;
use crate::speakers::Speaker;
use crate::telling::Telling;
use crate::town_lines::source;
use crate::{names, walk};

/// Questions put to each stream.
const QUESTIONS: usize = 2;
/// Longest key, of an ordinary record and of a wildcard.
const LONGEST_KEYS: [usize; 2] = [255, 253];

/// Record bytes, questions, and for each records that can't matter to it.
pub struct Index {
    bytes: Bytes,
    asked: Vec<(Asked, Vec<Put>)>,
}

enum Bytes {
    /// A source to be compiled.
    Source(Vec<u8>),
    /// Made field by field.
    Stream(Vec<u8>),
}

/// A record to be put behind so many others.
struct Put {
    behind: usize,
    record: Vec<u8>,
}

impl Index {
    /// Makes record bytes and questions.
    pub fn new(random: &mut Random) -> Index {
        let crowd = match random.once_in(3) {
            true => Crowd::of_any_bytes(random),
            false => Crowd::new(random),
        };
        let bytes = match crowd.stream(random) {
            Some(stream) => Bytes::Stream(stream),
            None => Bytes::Source(source(&crowd.town_lines(random), true, random)),
        };
        let asked = (0..QUESTIONS).map(|_| {
            let asked = crowd.question(random);
            let count = random.within(1, 4);
            let put = (0..count).filter_map(|_| without_matter(&asked.name, random));
            let put = put.collect();
            (asked, put)
        });
        let asked = asked.collect();
        Index { bytes, asked }
    }

    /// Holds the answers of fewer and of more records to those of all.
    /// Returns what was seen.
    pub fn check(&self, speaker: &mut dyn Speaker) -> Checked<Telling> {
        let compiled;
        let all = match &self.bytes {
            Bytes::Stream(bytes) => bytes,
            Bytes::Source(source) => match speaker.compile(source, 1)? {
                None => return Err(Difference(format!("refused: {}", literal(source)))),
                Some(records) => {
                    compiled = records;
                    &compiled
                }
            },
        };
        let mut telling = Telling::default();
        for (asked, put) in &self.asked {
            let told = speaker.ask(all, asked)?;
            let fewer = (speaker.reading().relevant)(all, &asked.name);
            if fewer.is_none() != matches!(told.end, 14 | 15) && !matches!(told.end, 16 | 17) {
                return Err(differs(
                    speaker,
                    "bytes or name should be taken",
                    all,
                    asked,
                ));
            }
            let Some(fewer) = fewer else {
                continue;
            };
            let more = with(all, put);
            if (speaker.reading().relevant)(&more, &asked.name).as_ref() != Some(&fewer) {
                return Err(differs(speaker, "what can't matter is kept", &more, asked));
            }
            for other in [&fewer, &more] {
                same(speaker, (all, &told), other, asked)?;
            }
            telling.count(Mark::IndexQuestion, true);
            telling.count(Mark::IndexList, !told.list.is_empty());
            telling.count(Mark::LeftOut, fewer.len() < all.len());
        }
        Ok(telling)
    }
}

/// Holds what other records answer to what was told of all.
fn same(
    speaker: &mut dyn Speaker,
    (all, told): (&[u8], &Told),
    other: &[u8],
    asked: &Asked,
) -> Checked {
    let told_other = speaker.ask(other, asked)?;
    let first = Heard { records: all, told };
    let second = Heard {
        records: other,
        told: &told_other,
    };
    match difference(first, second, Lifetimes::Same) {
        None => Ok(()),
        Some(words) => {
            let words = format!("{words}\n  other records: {}", literal(other));
            Err(differs(speaker, &words, all, asked))
        }
    }
}

/// A record whose owner is below the name, a wildcard of it, or beside it.
fn without_matter(name: &[u8], random: &mut Random) -> Option<Put> {
    let mut key = match (random.below(4), name.first()) {
        // A wildcard of the name itself.
        (0, _) => name.to_vec(),
        // Beside it: the first label is another one, with a byte more.
        (1, Some(&length @ 1..63)) => [&[length + 1, b'~'], &name[1..]].concat(),
        (2, _) => b"\x03~~~\0".to_vec(),
        _ => {
            let label = names::label(random);
            [&[label.len() as u8], &label[..], name].concat()
        }
    };
    key.make_ascii_lowercase();
    let starred = key.starts_with(b"\x01*");
    let wildcard = starred || key.eq_ignore_ascii_case(name) || random.once_in(2);
    let unlike = !name.to_ascii_lowercase().ends_with(&key) || key.len() == name.len();
    if !unlike || key.len() > LONGEST_KEYS[usize::from(wildcard)] {
        return None;
    }
    let record = plain(&key, random.pick(&[1, 2, 6]), wildcard);
    let behind = random.below(16);
    Some(Put { behind, record })
}

/// The records with others among them.
fn with(all: &[u8], put: &[Put]) -> Vec<u8> {
    let mut more = all.to_vec();
    for Put { behind, record } in put {
        let ends = walk::records(&more);
        let place = match behind.min(&ends.len()) {
            0 => 0,
            count => ends[count - 1].end,
        };
        more.splice(place..place, record.iter().copied());
    }
    more
}

fn differs(speaker: &dyn Speaker, words: &str, records: &[u8], asked: &Asked) -> Difference {
    Difference(format!(
        "index: {words}\n  records: {}\n{}\n  compared with {}",
        literal(records),
        describe(asked),
        speaker.reading().name
    ))
}
