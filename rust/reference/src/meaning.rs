//! Answers taken from the lines alone: from owners, types, times and data as
//! the lines give them. No record bytes are made or read here, so that a
//! compiler and a reader that agree on something wrong are still found out.

use crate::outcome::Outcome;
use crate::question::{lifetime, Question};
use crate::record::{types, Record, Resource};
use crate::values::Lo;

/// The outcome of a question and its records, in line order.
#[derive(Clone, Debug, PartialEq, Eq)]
pub struct Told {
    /// The outcome.
    pub outcome: Outcome,
    /// The records.
    pub list: Vec<Given>,
}

/// One record of an answer.
#[derive(Clone, Debug, PartialEq, Eq)]
pub struct Given {
    /// The record type.
    pub record_type: u16,
    /// The lifetime in seconds.
    pub lifetime: u32,
    /// The sizes of this record and of all before it, summed.
    pub end: u64,
    /// The record data.
    pub data: Vec<u8>,
}

/// A name as its labels, letters lowered.
type Labels = Vec<Vec<u8>>;

/// A record that the client sees.
struct Visible<'a> {
    owner: Labels,
    resource: &'a Resource,
    lifetime: u32,
    end: u64,
}

impl Visible<'_> {
    fn is(&self, record_type: u16) -> bool {
        self.resource.record_type == record_type
    }
}

/// All records that one client sees at one moment.
struct Sight<'a>(Vec<Visible<'a>>);

/// What the lines say to a question, or the number of its refusal.
pub fn told(records: &[Record], question: &Question<'_>) -> Result<Told, u64> {
    if let Some(number) = question.refusal() {
        return Err(number);
    }
    let sight = Sight(visible(records, question));
    let asked = labels(question.name);
    let mut chain = (0..=asked.len()).map(|cut| &asked[cut..]);
    let Some(control) = chain.find(|name| sight.has(name, types::NS)) else {
        return Ok(Told::new(Outcome::NotOurs, Vec::new()));
    };
    if !sight.has(control, types::SOA) {
        let mut servers = sight.ordinary(control);
        servers.retain(|record| record.is(types::NS));
        return Ok(Told::new(Outcome::Referral, servers));
    }
    let level = sight.level(&asked, asked.len() - control.len());
    let mut list = level.clone();
    list.retain(|record| question.record_type == types::ALL || record.is(question.record_type));
    let outcome = match (&level[..], &list[..]) {
        ([], _) => Outcome::Unknown,
        (_, []) => Outcome::OtherTypes,
        _ => Outcome::Records,
    };
    Ok(Told::new(outcome, list))
}

impl<'a> Sight<'a> {
    /// The records of an owner, a star in front being a label of it.
    fn of(&self, owner: &[Vec<u8>]) -> Vec<&Visible<'a>> {
        let records = self.0.iter();
        records.filter(|record| record.owner == owner).collect()
    }

    fn ordinary(&self, name: &[Vec<u8>]) -> Vec<&Visible<'a>> {
        match name {
            [first, ..] if first == b"*" => Vec::new(),
            _ => self.of(name),
        }
    }

    fn wildcards(&self, name: &[Vec<u8>]) -> Vec<&Visible<'a>> {
        self.of(&[&[b"*".to_vec()], name].concat())
    }

    fn has(&self, name: &[Vec<u8>], record_type: u16) -> bool {
        let records = self.ordinary(name);
        records.iter().any(|record| record.is(record_type))
    }

    /// The records of the name itself or, if it has none, the wildcards of
    /// the nearest of so many ancestors that has any.
    fn level(&self, asked: &[Vec<u8>], ancestors: usize) -> Vec<&Visible<'a>> {
        let mut level = self.ordinary(asked);
        for cut in 1..=ancestors {
            if level.is_empty() {
                level = self.wildcards(&asked[cut..]);
            }
        }
        level
    }
}

impl Told {
    fn new(outcome: Outcome, records: Vec<&Visible<'_>>) -> Told {
        let given = |record: &Visible<'_>| Given {
            record_type: record.resource.record_type,
            lifetime: record.lifetime,
            end: record.end,
            data: record.resource.data.clone(),
        };
        let list = records.into_iter().map(given).collect();
        Told { outcome, list }
    }
}

fn visible<'a>(records: &'a [Record], question: &Question<'_>) -> Vec<Visible<'a>> {
    let location = location(records, question.client);
    let mut end = 0;
    let mut visible = Vec::new();
    for record in records {
        end += record.size() as u64;
        let Record::Resource(resource) = record else {
            continue;
        };
        if let Some(lifetime) = seen(resource, location, question.moment) {
            visible.push(Visible {
                owner: labels(resource.owner.wire()),
                resource,
                lifetime,
                end,
            });
        }
    }
    visible
}

fn labels(wire: &[u8]) -> Labels {
    let mut labels = Vec::new();
    let mut rest = wire;
    while let [length @ 1..=63, behind @ ..] = rest {
        let (label, behind) = behind.split_at(usize::from(*length));
        labels.push(label.to_ascii_lowercase());
        rest = behind;
    }
    labels
}

/// Where the client is: prefixes tried from the longest to the empty one.
pub fn location(records: &[Record], client: &[u8]) -> Option<Lo> {
    let longest = if client.len() == 4 { 4 } else { 0 };
    (0..=longest).rev().find_map(|length| {
        records.iter().find_map(|record| match record {
            Record::Location { prefix, lo } if *prefix == client[..length] => Some(*lo),
            _ => None,
        })
    })
}

/// The lifetime of a record that this location sees at this moment.
fn seen(resource: &Resource, location: Option<Lo>, moment: u64) -> Option<u32> {
    match resource.lo {
        Some(lo) if location != Some(lo) => None,
        _ => lifetime(resource.ttl, resource.time.unwrap_or(0), moment),
    }
}
