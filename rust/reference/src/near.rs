//! The visible records of the asked name and of its ancestors, by depth: 0
//! for the name itself, n for its n-th ancestor.

use crate::name::{lower, LONGEST_NAME};
use crate::question::{lifetime, Question};
use crate::record::types;
use crate::stream::{Entry, Malformed, Stored, Stream};
use crate::values::Lo;

/// A visible record of the asked name or of an ancestor.
pub struct Near<'a> {
    /// Whose record it is.
    pub depth: u32,
    /// How long it may be kept.
    pub lifetime: u32,
    /// The record.
    pub stored: Stored<'a>,
}

impl Near<'_> {
    /// Whether the record makes its name a control name.
    pub fn is_server(&self) -> bool {
        !self.stored.wildcard && self.stored.record_type == types::NS
    }

    /// Whether the record makes a control name's zone ours.
    pub fn is_authority(&self) -> bool {
        !self.stored.wildcard && self.stored.record_type == types::SOA
    }

    /// Whether the record can answer: the name's own ordinary ones can, and
    /// of its ancestors the wildcards.
    pub fn is_candidate(&self) -> bool {
        self.stored.wildcard == (self.depth > 0)
    }
}

/// Record bytes as a question's client sees them.
pub struct View<'a> {
    records: &'a [u8],
    moment: u64,
    location: Option<Lo>,
    depths: Depths,
}

impl<'a> View<'a> {
    /// Judges all of the bytes and finds the client's location.
    pub fn new(records: &'a [u8], question: &Question<'_>) -> Result<View<'a>, Malformed> {
        Ok(View {
            records,
            moment: question.moment,
            location: location(records, question)?,
            depths: Depths::new(question.name),
        })
    }

    /// The visible records of the name and its ancestors, in order.
    pub fn near(&self) -> impl Iterator<Item = Near<'a>> + '_ {
        Stream::new(self.records).filter_map(|entry| {
            let Ok(Entry::Resource(stored)) = entry else {
                return None;
            };
            let depth = self.depths.of(stored.key)?;
            let sees = stored.lo.is_none() || stored.lo == self.location;
            let lifetime = lifetime(stored.ttl, stored.time, self.moment)?;
            sees.then_some(Near {
                depth,
                lifetime,
                stored,
            })
        })
    }
}

/// The location of the longest prefix that fits; of equal ones the first.
fn location(records: &[u8], question: &Question<'_>) -> Result<Option<Lo>, Malformed> {
    let mut best: Option<(usize, Lo)> = None;
    for entry in Stream::new(records) {
        if let Entry::Location { prefix, lo } = entry? {
            if let Some(fit) = question.fit(prefix) {
                if best.is_none_or(|(longest, _)| fit > longest) {
                    best = Some((fit, lo));
                }
            }
        }
    }
    Ok(best.map(|(_, lo)| lo))
}

/// Where the asked name and its ancestors stand, by the length of their wire
/// form: ancestors go by labels, and each has a length of its own.
struct Depths {
    name: Vec<u8>,
    by_length: [Option<u8>; LONGEST_NAME + 1],
}

impl Depths {
    fn new(name: &[u8]) -> Depths {
        let name: Vec<u8> = name.iter().copied().map(lower).collect();
        let mut by_length = [None; LONGEST_NAME + 1];
        let mut at = 0;
        for depth in 0.. {
            by_length[name.len() - at] = Some(depth);
            if name[at] == 0 {
                break;
            }
            at += 1 + usize::from(name[at]);
        }
        Depths { name, by_length }
    }

    /// The depth of a key; none for other names.
    fn of(&self, key: &[u8]) -> Option<u32> {
        let depth = self.by_length[key.len()]?;
        self.name.ends_with(key).then_some(depth.into())
    }
}
