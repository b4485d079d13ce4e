//! What a line means: locations and resource records, and their bytes.

use crate::name::{lower, Name};
use crate::values::Lo;

/// The record types that lines have their own kinds for.
pub mod types {
    #![allow(missing_docs)]
    pub const A: u16 = 1;
    pub const NS: u16 = 2;
    pub const CNAME: u16 = 5;
    pub const SOA: u16 = 6;
    pub const PTR: u16 = 12;
    pub const MX: u16 = 15;
    pub const TXT: u16 = 16;
    pub const AAAA: u16 = 28;
    pub const SRV: u16 = 33;
    /// As a question's type: all.
    pub const ALL: u16 = 255;
}

/// One record of a source.
#[derive(Clone, Debug, PartialEq, Eq)]
pub enum Record {
    /// Clients whose address begins with the prefix are at this location.
    Location {
        /// None to four bytes.
        prefix: Vec<u8>,
        /// The location.
        lo: Lo,
    },
    /// Something that can be asked for.
    Resource(Resource),
}

/// A record that can be asked for.
#[derive(Clone, Debug, PartialEq, Eq)]
pub struct Resource {
    /// The owner as written, a star in front included.
    pub owner: Name,
    /// The record type.
    pub record_type: u16,
    /// Time to live, in seconds.
    pub ttl: u32,
    /// Where the record starts or, with ttl 0, ends.
    pub time: Option<u64>,
    /// The only location that sees it.
    pub lo: Option<Lo>,
    /// The record data.
    pub data: Vec<u8>,
}

impl Record {
    /// How many bytes the record takes.
    pub fn size(&self) -> usize {
        match self {
            Record::Location { prefix, .. } => 8 + 2 + prefix.len() + 2,
            Record::Resource(resource) => {
                let key = resource.key().len();
                let lo = if resource.lo.is_some() { 2 } else { 0 };
                8 + key + 2 + 1 + lo + 4 + 8 + resource.data.len()
            }
        }
    }

    /// Writes the record's bytes behind those of the records before it.
    pub fn write(&self, bytes: &mut Vec<u8>) {
        match self {
            Record::Location { prefix, lo } => {
                lengths(bytes, 2 + prefix.len(), 2);
                bytes.extend_from_slice(b"\0%");
                bytes.extend_from_slice(prefix);
                bytes.extend_from_slice(&lo.0);
            }
            Record::Resource(resource) => resource.write(bytes),
        }
    }
}

impl Resource {
    fn key(&self) -> &[u8] {
        self.owner.behind_star().unwrap_or(self.owner.wire())
    }

    fn write(&self, bytes: &mut Vec<u8>) {
        let key = self.key();
        let fixed = if self.lo.is_some() { 17 } else { 15 };
        lengths(bytes, key.len(), fixed + self.data.len());
        bytes.extend(key.iter().copied().map(lower));
        bytes.extend_from_slice(&self.record_type.to_be_bytes());
        bytes.push(match (self.owner.behind_star(), self.lo) {
            (None, None) => b'=',
            (None, Some(_)) => b'>',
            (Some(_), None) => b'*',
            (Some(_), Some(_)) => b'+',
        });
        if let Some(lo) = self.lo {
            bytes.extend_from_slice(&lo.0);
        }
        bytes.extend_from_slice(&self.ttl.to_be_bytes());
        bytes.extend_from_slice(&self.time.unwrap_or(0).to_be_bytes());
        bytes.extend_from_slice(&self.data);
    }
}

fn lengths(bytes: &mut Vec<u8>, key: usize, data: usize) {
    bytes.extend_from_slice(&(key as u32).to_le_bytes());
    bytes.extend_from_slice(&(data as u32).to_le_bytes());
}
